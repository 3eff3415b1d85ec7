class SAVINGS
inherit ACCOUNT
end
