class EUROS
inherit MONEY
create make
feature
  whole: INTEGER
    do
      Result := cents // 100
    end
end
