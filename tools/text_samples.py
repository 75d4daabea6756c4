"""The texts that text_vectors.py makes its cases from: examples with what they must give, and fields in every form."""

from text_rules import CAUSES

# The examples of section 6.9, and its D.

D = b"28dfadaedcba90a5ac85b29542d50f57832e441c4ab58e8b690f16cd772a03c6"
EXAMPLES = [
    ("command", b"", (1, 0)),
    ("command", b"chd", (2, 3)),
    ("command", b"chd\n", True),
    ("command", b"chd\nreel7", True),
    ("command", b"chd\na\nb", (3, 6)),
    ("command", b"pwd\n", (2, 4)),
    ("command", b"PWD", (1, 0)),
    ("command", b"foo\nbar", (1, 0)),
    ("command", b"upl\nx", (3, 5)),
    ("command", b"upl\nx\n", (3, 6)),
    ("command", b"upl\nx\n05\n", (3, 6)),
    ("command", b"upl\nx\n5", (4, 7)),
    ("command", b"upl\nx\n5\n", (4, 8)),
    ("command", b"upl\nx\n4294967296\n" + D, (3, 6)),
    ("command", b"upl\nx\n5\n" + D, True),
    ("command", b"upl\nx\n5\n" + b"A" * 64, (4, 8)),
    ("command", b"upl\nx\n5\n" + D + b"\n", (5, 73)),
    ("command", b"upl\nx\n05\n" + D + b"\n", (3, 6)),
    ("log-in", b"", (1, 0)),
    ("log-in", b"12", (1, 0)),
    ("log-in", b"12\n", (2, 3)),
    ("log-in", b"12\nal", (2, 3)),
    ("log-in", b"12\nal\n", (3, 6)),
    ("log-in", b"12\nal\npw", (3, 6)),
    ("log-in", b"12\nal\npw\n", True),
    ("log-in", b"12\nal\n\n", True),
    ("log-in", b"12\nal\npw\nx", (4, 9)),
    ("log-in", b"12\nal\npw\n\n", (4, 9)),
    ("log-in", b"012\nal\npw\n", (1, 0)),
    ("log-in", b"12\n..\npw\n", (2, 3)),
    ("log-in", b"12\nseventeen-letters\npw\n", (2, 3)),
    ("log-in", b"18446744073709551615\nal\npw\n", True),
    ("log-in", b"18446744073709551616\nal\npw\n", (1, 0)),
    ("log-in", b"12\nal\n" + b"p" * 64 + b"\n", True),
    ("log-in", b"12\nal\n" + b"p" * 65 + b"\n", (3, 6)),
    ("log-in-response", D, True),
    ("log-in-response", D + b"\n", (2, 65)),
    ("log-in-response", b"0" * 63, (1, 0)),
    ("log-in-response", b"", (1, 0)),
    ("response", b"chd\n" + D + b"\nsuccess", True),
    ("response", b"chd\n" + D + b"\nsuccess\n", (4, 77)),
    ("response", b"chd\n" + D + b"\naccept", (3, 69)),
    ("response", b"chd\n" + D + b"\nfailure", (4, 76)),
    ("response", b"chd\n" + D + b"\nfailure\n", True),
    ("response", b"chd\n" + D, (3, 68)),
    ("response", b"chd", (2, 3)),
    ("response", b"pwd\n" + D + b"\nsuccess", (4, 76)),
    ("response", b"lst\n" + D + b"\nsuccess\n", True),
    ("response", b"lst\n" + D + b"\nsuccess\nQQ=", (4, 77)),
    ("response", b"lst\n" + D + b"\nsuccess\nQR==", (4, 77)),
    ("response", b"dnl\n" + D + b"\naccept\n7", (5, 77)),
    ("response", b"dnl\n" + D + b"\naccept\n7\n" + D, True),
    ("upload-response", D + b"\n2350", True),
    ("upload-response", D, (2, 64)),
    ("upload-response", D + b"\n", (2, 65)),
    ("upload-response", D + b"\n02350", (2, 65)),
    ("upload-response", D + b"\n2350\n", (3, 70)),
    ("go-ahead", b"ready", True),
    ("go-ahead", b"ready\n", (2, 6)),
    ("go-ahead", b"Ready", (1, 0)),
    ("go-ahead", b"", (1, 0)),
    ("go-ahead", b"cancel", True),
]

# The examples of the SiFT v1.1 protocol text: each command with the digest that the text shows for it, and each response.
LOG_IN = b"1648839091598392000\nalice\naaa\n"
LOG_IN_SHOWN = b"1ba1890e3ed90f2fb86a754d55fdcda4bd99cd8b75061f65b8ce293a109145b4"
LOG_IN_DIGEST = b"249cafcf7586f856f5f75ee6dadb682e8d023f1c595cade984328f2d6d7842ed"
FILE_SHOWN = b"b1a8b752fef9179e7691cf63104ebb913bbbc1b55040af3b379ab3608ff1881b"
REQUESTS = [
    (b"chd\ntestdir", b"919963f263c2d6889fb91f9fea17abc5f11aa112b9a46a71c3e179ae43c617d3", b"success"),
    (b"chd\ntest2", b"59124f965c19a8de84e96bc4dc7445efe085cc98097e9887641ba5691289a499", b"failure\nDirectory does not exist"),
    (b"pwd", b"a1159e9df3670d549d04524532629f5477ceb7deec9b45e47e8c009506ecb2c8", b"success\ntestdir/"),
    (b"lst", b"274088a0cde8b724153ed9396a946299f10c19c6cf593a19ce57c52580a32dcb", b"success\ndGVzdF8xLnR4dA=="),
    (b"upl\ntest_2.txt\n2350\n" + FILE_SHOWN, b"3ca3dbad248f619e6388d5ec32f8ffe38921291fe08ef2d284c5e432392d31a7", b"accept"),
    (b"dnl\ntest_2.txt", b"e0c810c0b393712e6438eec29b7fbf88f960fdd229da193e9d139099b6c58f58", b"accept\n2350\n" + FILE_SHOWN),
]
# The same with the session of section 11.1.
SESSION = [
    (b"lst", b"success\ncmVlbDcv"), (b"chd\nreel7", b"success"), (b"pwd", b"success\nreel7/"),
    (b"upl\nclip_7.prx\n2350\n" + D, b"accept"), (b"lst", b"success\nY2xpcF83LnByeA=="),
    (b"dnl\nclip_7.prx", b"accept\n2350\n" + D), (b"del\nclip_7.prx", b"failure\nheld"),
]

# What stands in place of each field; some are right.
NUMBERS = [b"", *b"0 1 9 10 00 01 007 +1 -1 -0 1_0 1e3 0x10 1.0 1,0 a / : 2350 4294967294 4294967295 4294967296 4294967297".split(),
           *b"42949672950 04294967295 9999999999 10000000000 18446744073709551614 18446744073709551615".split(),
           *b"18446744073709551616 18446744073709551620 18446744073709551625 28446744073709551615 99999999999999999999".split(),
           b"100000000000000000000",
           b" 1", b"1 ", b"1\r", b"1\0", "٣".encode(), "１".encode(), "²".encode(), b"1" * 40, b"9" * 400, b"0" * 20]
DIGESTS = [b"", D, D[:63], D[1:], D + b"0", b"0" * 64, b"f" * 64, b"9" * 64, b"a" * 64, D.upper(), b"A" + D[1:], D[:63] + b"F",
           D[:32] + b"C" + D[33:], D[:63] + b"g", *(bytes([byte]) + D[1:] for byte in b"g`/:@"), D[:63] + b"\0", D[:63] + b" ",
           b" " + D[:63], D[:63] + b"\r", b"0x" + D[2:], D[:62] + "é".encode(), D[:32] + b"\xff" + D[33:], D[:40], D + D,
           bytes.fromhex(D.decode()), D[:32] + b"\n" + D[33:], D[:63] + b"\n", b"\n" + D[1:]]
NAMES = [b"", *b"a Z 0 _ - . .. ... .a ..a a.. a.b a/b / a@b [ ` { @ : , + ^ seventeen-letters reel7 clip_7.prx A.b_C-9".split(),
         b"a" * 16, b"a" * 17, b"b" * 32, b"b" * 33, b"." * 16, b"." * 32, b"." * 33, b"a" * 200, b"a b", b" al", b"al ", b"al\0",
         b"\0", b"a\r", "é".encode(), b"\xff" * 3, b"a\nb", b"\n"]
PASSWORDS = [b"", b"p", b"pass word", b"p" * 63, b"p" * 64, b"p" * 65, b"\0", b"\0" * 64, b"\xff" * 64, b"\xff" * 65, b"\r",
             "pä".encode(), bytes(range(11, 75)), b"\n", b"p\n", b"\np", b"p" * 64 + b"\n"]
WORDS = [b"", *b"pwd lst chd mkd del upl dnl pw wd pwdd ppwd PWD Pwd chD upL dn1 ls cd foo success".split(), b" pwd", b"pwd ",
         b"pwd\0", b"pwd\r", b"upl ", b"\xef\xbb\xbfpwd"]
STATES = [b"", *b"success failure accept reject Success SUCCESS succes successs fail accepted rejected accep done ok".split(),
          b" success", b"success ", b"failure\r", b"\0"]
FREE = [b"", b"/", b"reel7/", b"a/b/", b"\0", b"\r", b" ", bytes(range(10)), bytes(range(11, 256)), b"Directory does not exist",
        "größer".encode(), b"a\nb", b"\n", *CAUSES.values()]
LISTINGS = [b"", *b"QQ== QUE= QUFB QUFBQQ== QUFBQUE= QUFBQUFB cmVlbDcv Y2xpcF83LnByeA== dGVzdF8xLnR4dA==".split(),
            *b"AAAA //// ++++ AA== AAA= /w== //8= zzzz 0189".split(),
            # unused bits
            *b"QR== QS== QT== QU== QV== QW== QX== QY== QZ== Qa== Qb== Qc== Qd== Qe== Qf== /x== QUFBQR==".split(),
            *b"QUF= QUG= QUH= //9= QUFBQUF=".split(),
            # padding that is missing, too much, or not at the end
            *b"QQ QQ= QUE QUFBQQ QUFBQQ= QUFB= QUFB== QUFB=== QUFB==== QQ=== QQ==== QUE== QUE===== = == === ====".split(),
            *b"=QUE Q=UE QU=E Q=== =QQ= Q=Q= QQ=Q ==QQ =Q== QQ==QQ== QQ==QUFB QUE=QUFB QUFBQ=UE A=AAAAAA AAA=AAA=".split(),
            # one or two characters too many
            *b"A AAAAA QUFBQ QUFBQUFBQ AAAAAA".split(),
            # other alphabets
            *b"-___ _w== -w== __8= QU-B QU_B QU,B QU.B QU*B QU~B QUF@ QUF[ QUF` QUF{ QUF:".split(),
            # line breaks and other white space
            b"QUFB\n", b"\nQUFB", b"QUFB\nQUFB", b"QUFB\r\nQUFB", b"QUFB\r", b"QUFB ", b" QUFB", b"QU FB", b"QQ==\n", b"QQ= =",
            b"QUFB\t",
            # bytes that are no characters
            b"QUF\0", b"\0\0\0\0", b"QUF\xc1", b"\xff\xff\xff\xff", b"QQ=\xbd", "QUFé".encode()]
GO_AHEADS = [b"", *b"ready cancel Ready READY readY read eady readyy Cancel cance cancell cancelled readycancel y success".split(),
             b"1", b" ready", b"ready ", b"ready\r", b"ready\0", b"ready cancel", b"\nready", b"ready\ncancel"]

# A right text of each shape, as fields, and what may stand in place of each.
SHAPES = [
    ("log-in", [b"12", b"al", b"pw"], [NUMBERS, NAMES, PASSWORDS]),
    ("log-in-response", [D], [DIGESTS]),
    ("upload-response", [D, b"2350"], [DIGESTS, NUMBERS]),
    ("go-ahead", [b"ready"], [GO_AHEADS]),
    ("command", [b"pwd"], [WORDS]),
    ("command", [b"lst"], [WORDS]),
    *(("command", [told, b"reel7"], [WORDS if told == b"chd" else [], NAMES if told == b"del" else NAMES[::5]])
      for told in (b"chd", b"mkd", b"del", b"dnl")),
    ("command", [b"upl", b"clip.prx", b"2350", D], [WORDS, NAMES, NUMBERS, DIGESTS]),
    *(("response", [told, D, b"success"], [WORDS[:8], DIGESTS[::8], STATES[:8]]) for told in (b"chd", b"mkd", b"del")),
    *(("response", [told, D, b"failure", b"held"], [WORDS[:8], DIGESTS[::8], STATES[:8], FREE[::3]])
      for told in (b"pwd", b"lst", b"chd", b"mkd", b"del")),
    *(("response", [told, D, b"reject", b"held"], [WORDS[:8], DIGESTS[::8], STATES[:8], FREE[::3]]) for told in (b"upl", b"dnl")),
    ("response", [b"pwd", D, b"success", b"reel7/"], [WORDS, DIGESTS, STATES, FREE]),
    ("response", [b"lst", D, b"success", b"QUE="], [WORDS, DIGESTS[::4], STATES, LISTINGS]),
    ("response", [b"upl", D, b"accept"], [WORDS[:8], DIGESTS[::4], STATES]),
    ("response", [b"dnl", D, b"accept", b"7", D], [WORDS, DIGESTS[::4], STATES, NUMBERS, DIGESTS]),
]
