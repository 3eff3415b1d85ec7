class BASE
inherit
  APP
end
