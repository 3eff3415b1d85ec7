class APP
create make
feature
  make
    do
      greet ( )
    end
  greet
    do
    end
end
