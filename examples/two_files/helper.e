note
  description: "A class that the root does not reach. It is judged all the same."
class HELPER
create run
feature
  run
    do
      step
    end
feature {NONE}
  step
    do
    end
end
