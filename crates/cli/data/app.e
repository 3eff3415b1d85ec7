class APP
create make
feature
  make
    do
    end
end
