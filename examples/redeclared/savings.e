class SAVINGS
inherit ACCOUNT redefine deposit end
create make
feature
  deposit (amount: EUROS)
    do
      Precursor (amount)
    end
end
