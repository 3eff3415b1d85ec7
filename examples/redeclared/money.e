class MONEY
create make
feature
  cents: INTEGER
  make (count: INTEGER)
    do
      cents := count
    end
end
