"""Texts for which `rule` writes a rule file, with the next states that Golly gives, and texts that name no rule."""

# Texts, and the next states of the neighbourhoods 0 to 511 (tests/lib/isotropic.py) in hexadecimal digits, the first the highest: those of bgolly 3.3.
GOLLY_STATES = {
    "B3/S23":
        "0116177e16687ee816687ee86880e88016687ee86880e8806880e8808000800016687ee86880e8806880e880800080006880e880800080008000800000000000",
    "MAPARYXfhZofugWaH7oaIDogBZofuhogOiAaIDogIAAgAAWaH7oaIDogGiA6ICAAIAAaIDogIAAgACAAIAAAAAAAA":
        "0116177e16687ee816687ee86880e88016687ee86880e8806880e8808000800016687ee86880e8806880e880800080006880e880800080008000800000000000",
    "B2-a/S12":
        "04287ee86080e8806800e880800080006880e8808000800000008000000000006880e88000008000800080000000000000008000000000000000000000000000",
    "B34t5-ij6n7e8/S01c2-k4w":
        "0116de60166828801669c88268d60000176920806996800069828000966a08001668c800699e900069868000946900006996804090780000b661000029050000",
    "2-a3/3":
        "0116053e166876e816687e686880e88016687ee86880e880688068808000800016687ee8688068806880e8808000800068806880800080008000800000000000",
    "B2/S34H":
        "1166001166881177116600116688117766881177880077ee66881177880077ee66881177880077ee66881177880077ee880077ee0000ee88880077ee0000ee88",
    "B2/S13V":
        "003333cc33cccc33003333cc33cccc3333cccc33cc0033cc33cccc33cc0033cc003333cc33cccc33003333cc33cccc3333cccc33cc0033cc33cccc33cc0033cc",
    "MAPAAAAAP////8AAAAA/////wAAAAD/////AAAAAP////8AAAAA/////wAAAAD/////AAAAAP////8AAAAA/////w":
        "00000000ffffffff00000000ffffffff00000000ffffffff00000000ffffffff00000000ffffffff00000000ffffffff00000000ffffffff00000000ffffffff",
}

# A Generations rule, its number of states, nine cells in rows from the north-west, and the next state of the one in the middle, which follows from Golly's
# help on the family.
AGEING_CELLS = (
    ("/2/3", 3, (1, 0, 0, 0, 0, 0, 0, 0, 1), 1),
    ("/2/3", 3, (1, 0, 0, 2, 0, 2, 0, 0, 1), 1),
    ("/2/3", 3, (2, 0, 0, 0, 0, 0, 0, 0, 2), 0),
    ("/2/3", 3, (1, 0, 0, 0, 1, 0, 0, 0, 1), 2),
    ("/2/3", 3, (1, 0, 0, 0, 2, 0, 0, 0, 1), 0),
    ("345/2/4", 4, (1, 1, 1, 0, 1, 0, 0, 2, 3), 1),
    ("345/2/4", 4, (1, 1, 2, 0, 1, 0, 0, 2, 3), 2),
    ("345/2/4", 4, (1, 1, 1, 0, 2, 0, 0, 0, 0), 3),
    ("345/2/4", 4, (1, 1, 1, 0, 3, 0, 0, 0, 0), 0),
    ("332/33/03", 3, (0, 0, 1, 0, 0, 1, 2, 2, 1), 1),
    ("23/3/2", 2, (0, 1, 0, 0, 1, 0, 0, 0, 0), 0),
    ("23/3/2", 2, (1, 1, 1, 0, 0, 0, 0, 0, 0), 1),
    ("//256", 256, (255, 0, 0, 0, 254, 0, 1, 0, 0), 255),
    ("//256", 256, (1, 1, 1, 1, 255, 1, 1, 1, 1), 0),
)
