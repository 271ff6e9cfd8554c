"""Databases and logs for the tests of several tools."""

from __future__ import annotations

# Units and named values that read like what a decoded line has of its own, and a message of a name that the tool uses itself.
HOSTILE = rb"""VERSION "h, A: 1"
BU_: E
BO_ 1 N0: 8 E
 SG_ A : 0|8@1+ (1,0) [0|0] ", B: 7 x)" E
 SG_ B : 8|8@1+ (0.5,-3) [0|0] " :: N0(A: 1)" E
 SG_ C : 16|8@1- (1,0) [0|0] "\" SG_ D : 0|8@1+
BO_ 9 F: 1 E" E
 SG_ n : 24|8@1+ (1,0) [0|0] "km) :: V1(A: n41)" E
BO_ 2 V1: 1 E
 SG_ A : 0|8@1+ (1,0) [0|0] "" E
CM_ "
VAL_ 1 A 1 \"x\" ;
";
VAL_ 1 A 1 "5 km" 2 ", B: 1, C: 2)" 3 "?float" 4 "n41" 5 " :: Error frame" 6 "a
ok
b" ;
VAL_ 1 B 1 "\" ;" 2 "-1.5" 3 "BO_ 1 N0: 8 E" ;
VAL_ 2 A 1 "A: 1, A: 1" 2 "V1(A: n41)" 3 "\377\376" ;
"""
HOSTILE_LOG = b"""(1.0) can0 001#0102030401020304
(2.0) can0 001#02010605
(2.1) can0 001#0201060501010101 :: N0(A: 1)
(2.2) can0 001#0303FF0501010101 :: V0(A: n41, B: 1) :: V1()
(3.0) can0 00000001#0303FF0501010101 :: N0(A: 1)
hello :: N0(A: 1)
(4.0) can0 12345#00 :: V1(A: n41)
(5.0) can0 002#01
(5.1) can0 002#02
(5.2) can0 002#03
(5.3) can0 002#04
(6.0) can0 001#0605040302010000
ok
"""

# texts of Latin-1
LATIN = b"BU_: E\nBO_ 2147483649 M: 8 E\n SG_ T : 0|8@1+ (1,0) [0|0] \"\xb0C\" E\n SG_ F : 8|32@1+ (0.5,1) [0|0] \"\xb5V, b\" E\n"
LATIN += b'SIG_VALTYPE_ 2147483649 F : 1;\nVAL_ 2147483649 T 1 "k\xfchl" ;\n'
