class CREDIT
inherit ACCOUNT rename close as close_credit end
end
