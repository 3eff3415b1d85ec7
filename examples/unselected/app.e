class APP
inherit
  SAVINGS
  CREDIT
create make
feature
  make
    do
    end
end
