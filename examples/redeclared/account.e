class ACCOUNT
create make
feature
  balance: INTEGER
  make
    do
    end
  deposit (amount: MONEY)
    do
      balance := balance + amount.cents
    end
end
