class APP
create make
feature
  make
    do
      greet
      part
    end
  greet
    do
    end
  part
    do
    end
end
