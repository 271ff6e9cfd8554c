#!/usr/bin/env python3
"""A database text, to measure how fast texts are read: MESSAGES messages of four signals, with comments and value descriptions.

    make_text.py FILE MESSAGES
"""

import sys


def main():
    path, messages = sys.argv[1], int(sys.argv[2])
    with open(path, "w") as out:
        nodes = " ".join("Node%d" % index for index in range(30))
        out.write('VERSION "generated"\n\nNS_ :\n\tCM_\n\tBA_\n\nBS_:\n\nBU_: ' + nodes + "\n\n")
        for message in range(messages):
            out.write("BO_ %d Message%d: 8 Node%d\n" % (2147483648 + message, message, message % 30))
            for signal in range(4):
                field = "%d|16@1+ (0.03125,-40) [-40|2007.96875]" % (16 * signal)
                out.write(' SG_ Signal%d : %s "km/h"  Node1,Node2\n' % (signal, field))
            out.write("\n")
        for message in range(messages):
            out.write('CM_ SG_ %d Signal1 "How fast it turns,\n in km/h";\n' % (2147483648 + message))
        for message in range(messages):
            out.write('VAL_ %d Signal0 0 "off" 1 "on" 2 "fault" ;\n' % (2147483648 + message))


if __name__ == "__main__":
    main()
