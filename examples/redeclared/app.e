class APP
create make
feature
  make
    local
      savings: SAVINGS
    do
      create savings.make
      savings.deposit (create {EUROS}.make (500))
      print (savings.balance)
    end
end
