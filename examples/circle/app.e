class APP
inherit
  BASE
create make
feature
  make
    do
    end
end
