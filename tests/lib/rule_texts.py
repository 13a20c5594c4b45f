"""Rule texts of each family: spellings of rules, by the form in which they are printed, and texts that name no rule, by why they don't."""
from dataclasses import dataclass

from lib.claim_text import differs


@dataclass(frozen=True)
class Family:
    """Texts of a family of rules, in words: spellings by their printed form, rules beside these, and texts that name none by their faults."""

    name: str
    spellings: dict
    others: str
    no_rules: dict


# Many digits of a number of states.
ZEROS, NINES = "0" * 10000, "9" * 10000

COUNTING = Family("B/S rules", {
    "B3/S23": "B3/S23 23/3 s23b3 b3s23 s32b33 B3S32 S32/B33 32/3",
    "B36/S23": "23/36 b63/s32",
    "B37/S23": "B37/S23",
    "B3678/S34678": "34678/3678 S87643B8763",
    "B2/S": "/2 b2s sB2 S/b22",
    "B234/S": "/234",
    "B1357/S1357": "1357/1357 B7531S1357",
    "B1357/S02468": "02468/1357 B1357/S86420",
    "B36/S125": "125/36 b36/S521",
    "B3/S12345": "12345/3 S54321/B3",
    "B3/S1234": "1234/3",
    "B35678/S5678": "5678/35678",
    "B368/S245": "245/368 B863/s542",
    "B4678/S35678": "35678/4678",
    "B3/S012345678": "012345678/3 S876543210B3",
    "B1/S1": "1/1 b11s111",
    "B2/S0": "0/2",
    "B3/S45678": "45678/3",
    "B34/S34": "34/34",
    "B357/S1358": "1358/357",
    "B/S": "/ BS sb S/b",
    "B3/S23V": "23/3V",
    "B1/SV": "b1sv",
    "B4/S1234V": "S4321B4V",
    "B/SV": "/v",
    "B1234/S1234V": "1234/1234v",
    "B6/S6H": "B6/S6h",
    "B2/S34H": "B2/S34H 43/2h s43b2H",
    "B123456/S0123456H": "s0123456b654321H",
    "B/SH": "BSh",
}, "B3/S2 B3/S23H", {
    "bounded": "B3/S23:T30,20 B03/S23:P8 23/3: B0: :Life :",
    "wakes": "B012345678/S B0/S b03s23 /0 s3b0 23/300 B0SV /0h B03/S23",
    "unknown": """Life B S V h 23 B3 B3/ B3V B9/S B/S9 9/3 23/9 B5/SV B/S5v 5/3V B7/SH S8B3h 23/37H B08/S9 B05/SV B3/S2/S3 B3//S23 /B3/S23 B3/S23/
        23/3/ B3/23 23/B3 B3/B23 s23s3 B3/S23VV B3/S23VH B3/S23M VB3/S23 B3V/S23 B3/S2-3""",
})

AGEING = Family("Generations rules", {
    "23/3/3": f"332/33/03 32/3/3 23/3/{ZEROS}3 {'2' * 10000}3/3/3",
    "23/3/2": "32/33/0002",
    "/2/256": f"/222/0256 /2/{ZEROS}256",
    "012345678/12345678/25": "876543210/87654321/25 012345678876543210/1234567887654321/0025",
    "//2": "//02",
    "0/1/255": "00/11/255",
    "8/8/10": "88/88/010",
}, "B3/S23 B3/S2 2/3/3 23/3/4 3/23/3 23/3/256", {
    "bounded": "23/3/3:T30,20 2/0/3: 2/3/:3 9/9/9: :2/3/3",
    "wakes": f"2/0/3 /0/2 /30/256 012345678/876543210/4 2/0/00003 2/0/{ZEROS}3",
    "unknown": f"""2/3/1 2/3/0 2/3/257 2/3/258 2/3/512 2/3/65539 2/3/4294967299 2/3/18446744073709551619 2/3/{NINES} 2/3/{ZEROS} 2/3/{ZEROS}1 2/3/{ZEROS}257
        9/3/3 3/9/3 2/3/ /2/3/ 2/3/3/ 2//3/3 /// 2/3/3V 2/3/3h 2/3/3A 2-a/3/3 2/3a/3 B2/S3/3 B2/3/3 2/S3/3 2/3/C3 2/3/+3 2/3/-3 2/3/3, 2,3/3/3 2_3_3
        2/3/0x3 2/3/3.0 2\\3\\3 2/0/1 2/0/257 9/0/3 2/0/{NINES}""",
})

FAMILIES = (COUNTING, AGEING)

# Rule files that give a name, the rule text of a lone cell of state 1, and the verdict on the claim that it becomes nothing, as it does under the table.
NAMES = (
    ("0/2/3", "0/2/3", differs(1)),
    ("0/2/3", "00/2/03", differs(1)),
    ("00/2/03", "00/2/03", differs(1)),
    ("/2/3", "/2/3", differs(1)),
    ("0/3/2", "0/3/2", differs(1)),
    ("2/0/3", "2/0/3", "refused, bad rule: wakes"),
    ("2/3/3:T9", "2/3/3:T9", "refused, bad rule: bounded"),
    ("9/3/3", "9/3/3", "yes"),
    ("2/3/1", "2/3/1", "yes"),
    ("2/3/257", "2/3/257", "yes"),
    ("2/0/257", "2/0/257", "yes"),
    ("2/3/3V", "2/3/3V", "yes"),
    ("2/3/3V", "2/3/3v", "refused, bad rule: unknown"),
)

# A table under which a lone cell dies.
DIE = "@RULE {name}\n@TABLE\nn_states:2\nneighborhood:oneDimensional\nsymmetries:none\n1000\n"
