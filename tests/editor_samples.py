"""Databases for the tests of editors, and what is wanted in them."""

from __future__ import annotations

BASE = """\
VERSION ""
BU_: Gateway Dash
VAL_TABLE_ OnOff 0 "off" 1 "on" ;
BO_ 500 Motor: 4 Gateway
 SG_ Mode M : 0|4@1+ (1,0) [0|15] "" Dash
 SG_ Speed m1 : 8|16@1+ (0.25,-40) [0|0] "°/s" Dash,Gateway
 SG_ Heat m2 : 8|8@1- (1,0) [0|0] "" Dash
BO_ 2566844672 CCVS: 8 Gateway
 SG_ Speed : 8|16@1+ (0.00390625,0) [0|250] "km/h" Dash
CM_ SG_ 500 Speed "how fast, Speed";
CM_ BU_ Dash "shows it";
BA_DEF_ BO_ "Kind" ENUM "fast","slow";
BA_DEF_DEF_ "Kind" "slow";
BA_ "Kind" BO_ 500 1;
VAL_ 500 Speed 0 "stop" 1 "ä" ;
SIG_GROUP_ 500 Group 1 : Mode Speed;
SG_MUL_VAL_ 500 Speed Mode 1-1, 3-4;
"""
MOTOR = """\
Message Motor 500 4
   0:   .   .   .   .   0   0   0   0
   1:   *   *   *   *   *   *   *   *
   2:   1   1   1   1   1   1   1   1
   3:   .   .   .   .   .   .   .   .
   0 Mode 0|4@1+
   1 Speed 8|16@1+ when Mode 1-1,3-4
   2 Heat 8|8@1- when Mode 2-2"""
LOOSE = 'BU_:A\nBO_ 1 M:1 A\n SG_ S:0|8@1+(1,0)[0|0]"ä" A\nCM_ BO_ 1 "x\ny";\n'
CANONICAL = 'VERSION ""\nNS_ :\nBS_:\nBU_: A\nBO_ 1 M: 1 A\n SG_ S : 0|8@1+ (1,0) [0|0] "ä" A\nCM_ BO_ 1 "x\ny";\n'
# a position, the new name, and the lines of BASE after renaming
RENAMINGS: tuple[tuple[tuple[int, int], str, dict[int, str]], ...] = (
    (
        (14, 10), "Pace",
        {
            5: ' SG_ Pace m1 : 8|16@1+ (0.25,-40) [0|0] "°/s" Dash,Gateway',
            9: 'CM_ SG_ 500 Pace "how fast, Speed";',
            14: 'VAL_ 500 Pace 0 "stop" 1 "ä" ;',
            15: "SIG_GROUP_ 500 Group 1 : Mode Pace;",
            16: "SG_MUL_VAL_ 500 Pace Mode 1-1, 3-4;",
        },
    ),
    (
        (4, 5), "Gear",
        {
            4: ' SG_ Gear M : 0|4@1+ (1,0) [0|15] "" Dash',
            15: "SIG_GROUP_ 500 Group 1 : Gear Speed;",
            16: "SG_MUL_VAL_ 500 Speed Gear 1-1, 3-4;",
        },
    ),
    ((8, 10), "Velocity", {8: ' SG_ Velocity : 8|16@1+ (0.00390625,0) [0|250] "km/h" Dash'}),
)
# a position in BASE, and the lines that hover shows
HOVERS: tuple[tuple[str, tuple[int, int], str], ...] = (
    (
        "a signal", (14, 10),
        "Motor.Speed: 16 bits from 8, intel, unsigned\nvalue = 0.25 * raw - 40 °/s, limits [0|0]\nreceived by Dash, Gateway\n"
        f'present if Mode is 1-1,3-4\nhow fast, Speed\n0 "stop"\n1 "ä"\n\n{MOTOR}',
    ),
    ("a message", (3, 9), f"Motor 500 (0x1F4), 4 bytes, from Gateway\n\n{MOTOR}"),
    (
        "an extended identifier", (7, 5),
        "CCVS 2566844672 (extended 0x18FEF100), 8 bytes, from Gateway\n"
        "J1939: priority 0x6, PDU format 0xFE, PDU specific 0xF1, source address 0x00, PGN 0xFEF1\n\nMessage CCVS 2566844672 8\n",
    ),
    ("a node", (10, 9), "node Dash\nshows it\nsends nothing\nreceives Motor.Mode, Motor.Speed, Motor.Heat, CCVS.Speed"),
    ("a value table", (2, 12), 'value table OnOff\n0 "off"\n1 "on"'),
    ("an attribute", (13, 5), 'attribute "Kind"\nof a message ENUM "fast","slow"\ndefault slow'),
    ("a start bit", (6, 15), "Motor.Heat: 8 bits from 8, intel, signed\nvalue = 1 * raw, limits [0|0]\n"),
)
