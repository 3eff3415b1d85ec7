class APP
create make
feature
  make
    do
      greet
      leave
    end
  greet
    do
    end
end
