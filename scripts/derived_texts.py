"""Texts of live manifests that are derived from one, for the inputs that hold them."""

TRACK = b'<video systemBitrate="%d"><param name="trackID" value="%d"/><param name="trackName" value="%d"/></video>'
DATA = b' valuetype="data"'

# What stands once or more in a text, and what is put in place of its first occurrence.
EDITS = [
    (DATA, b""), (DATA, b" valuetype=data"), (DATA, b" valuetype = 'data'"), (DATA, b'\tvaluetype\n=\r"data" '),
    (DATA, b'valuetype="data"'), (DATA, b' valuetype="da<ta"'), (DATA, b' valuetype="da>ta"'), (DATA, b" valuetype='da\"ta'"),
    (DATA, b' valuetype="data'), (DATA, b" valuetype"), (DATA, b" valuetype="), (DATA, b' valuetype="" '), (DATA, b' 1="data"'),
    (DATA, b' a.b-c:d_9="data"'), (DATA, b' name="x"'), (DATA, b' value="1"'), (DATA, b' b="1"c="2"'), (DATA, b' b="1"\x0bc="2"'),
    (DATA, b' b="\xff\x00"'), (DATA, b" =''"), (DATA, b"/"), (DATA, b" / "), (DATA, b" >"),
    *((DATA, b' b="%s"' % value) for value in (
        b"&lt;&gt;&amp;&quot;&apos;", b"&lt", b"&", b"& ", b"&;", b"&LT;", b"&bad;", b"&#65;", b"&#0;", b"&#1114111;", b"&#1114112;",
        b"&#55295;", b"&#55296;", b"&#57343;", b"&#57344;", b"&#x41;", b"&#;", b"&#6 5;", b"&#00000000000000000000000065;",
        b"&#99999999999999999999999999;", b"&#4294967361;", b"&#18446744073709551681;", b"&#-1;", b"&#+65;")),
    (b'name="trackID"', b'name="track&#73;D"'), (b'name="trackID"', b'name="TrackID"'), (b'name="trackID"', b'NAME="trackID"'),
    (b'name="trackID" value=', b'value="1" name='), (b'name="trackID" value=', b'name="trackID" Value='),
    (b'<param name="trackID"', b'<param name="trackID" value="1"/><param name="trackID"'),
    (b'<param name="trackID"', b'<param name="trackID"/><param name="trackID"'),
    (b'<param name="trackID"', b'<param value="trackID"/><param name="trackID"'),
    (b'<param name="trackID"', b'<x><param name="trackID" value="2"/></x><param name="trackID"'),
    (b'<param name="trackID"', b'<param><param name="trackID" value="2"/></param><param name="trackID"'),
    (b'<param name="trackID"', b'<video systemBitrate="7"/><param name="trackID"'),
    (b'<param name="trackID"', b'<Param name="trackID"'), (b'<param name="trackID"', b'text &amp & <param name="trackID"'),
    *((b'<param name="trackID"', b'<param name="%s" value="5"/><param name="%s" value="5"/><param name="trackID"' % (name, name)) for name in (
        b"TimeScale", b"systemLanguage", b"MaxWidth", b"AudioTag", b"systemBitrate", b"PacketSize", b"FourCC", b"trackName")),
    *((b'<param name="trackID"', b'<param name="%s" value="%s"/><param name="trackID"' % pair) for pair in (
        (b"PacketSize", b""), (b"PacketSize", b"4294967295"), (b"PacketSize", b"4294967296"), (b"PacketSize", b"00000000001"),
        (b"PacketSize", b"0000000001"), (b"PacketSize", b" 1"), (b"PacketSize", b"9999999999"), (b"PacketSize", b"&#49;"),
        (b"TimeScale", b"0"), (b"TimeScale", b"x"), (b"timescale", b"x"), (b"systemBitrate", b"x"))),
    *((b'name="trackID" value="1"', b'name="trackID" value="%s"' % value) for value in (
        b"", b"01", b"0000000001", b"00000000001", b"4294967296", b"0", b"2", b"9", b"-1", b"1 ", b"&#49;", b"x", b"\xd9\xa1")),
    (b' systemBitrate="', b' systemBitRate="'), (b' systemBitrate="', b' systemBitrate="x'), (b' systemBitrate="', b' systemBitrate="0'),
    (b' systemBitrate="', b' systemBitrate="" x="'), (b' systemBitrate="', b' systemBitrate="99999" x="'),
    (b' systemBitrate="200000"', b' systemBitrate="400000"'), (b' systemBitrate="200000"', b' systemBitrate="0000400000"'),
    *((b'name="trackName" value="video"', b'name="trackName" value="%s"' % name) for name in (
        b"", b"a" * 64, b"a" * 65, b"a/b", b"az09AZ_-. ", b"\xc3\xa9", b"\xc3", b"\xff", b"&#233;", b"&#0;", b"&lt;", b"audio", b"\xc0\xaf",
        b"\xed\xa0\x80", b"\xf4\x90\x80\x80", b"\xf4\x8f\xbf\xbf", b"\x7f", b"a:b", b"\xc3\xa9" * 32, b"\xc3\xa9" * 33, b"a" * 63 + b"\xc3\xa9")),
    (b'name="trackName"', b'name="trackname"'),
    *((b'name="FourCC" value="H264"', b'name="FourCC" value="%s"' % value) for value in (b"", b"H2", b"-_ 9", b"H2645", b"H/64", b"H2\xc3\xa9", b"H&#50;6")),
    *((b'name="CodecPrivateData" value="', b'name="CodecPrivateData" value="%s' % value) for value in (
        b"0", b"00", b"0G", b"aF", b" 0", b"00" * 32_000, b"00" * 32_768, b'" x="', b'0" x="', b"%s\" x=\"" % (b"0f" * 32_768), b"%s\" x=\"" % (b"0f" * 32_769))),
    (b"<video ", b"<audio "), (b"<video ", b"<vide "), (b"<video ", b"<Video "), (b"<video ", b"< video "), (b"<video ", b"<video"),
    (b"<video ", b"<video\n"), (b"<video ", b"<textstream systemBitrate='5'><param name='trackID' value='5'/></textstream><video "),
    (b"<video ", b"<video/><video "), (b"<video ", b"<video systemBitrate='5'/><video "), (b"<video ", b"<x><video "),
    (b"<video ", b"<x><video systemBitrate='5'/></x><video "), (b"<video ", b"</switch><video systemBitrate='5'/><switch><video "),
    (b"<video ", b"</switch><switch/><switch><video "), (b"<video ", b"</switch></body><body><switch><video "),
    (b"<switch>", b"<switch><switch>"), (b"<switch>", b"<Switch>"), (b"<switch>", b"<switch a='1'>"), (b"<switch>", b"<switch/>"),
    (b"</switch>", b"</switch >"), (b"</switch>", b"</ switch>"), (b"</switch>", b"</switch/>"), (b"</switch>", b"</body>"), (b"</switch>", b""),
    (b"</switch>", b"</switch\t\r\n>"), (b"</switch>", b"</switch a='1'>"), (b"</switch>", b"<//switch>"), (b"</switch>", b"</switch"),
    (b"<body>", b"<body >"), (b"<body>", b"< body>"), (b"<body>", b"<body/>"), (b"<body>", b"<body / >"), (b"<body>", b"<9body>"), (b"<body>", b"<>"),
    *((b"<body>", part + b"<body>") for part in (
        b"<!---->", b"<!--->", b"<!-->", b"<!-->-->", b"<!--->-->", b"<!-- -- < & -->", b"<!-- --->", b"<!x>", b"<!DOCTYPE smil>", b"<![CDATA[x]]>",
        b"<?x>", b"<??>", b"<?>", b"<?x?>", b"<?x?>?>", b"<? < & ?>", b"x", b"&", b"\0", b"\xef\xbb\xbf", b"]]>", b">", b"<x/>", b"<x y='1'/>", b"<x></x>", b"<x></y>",
        b"<:x/>", b"<_x/>", b"<x:y/>", b"<-x/>", b"<x.y-z/>", b"<\xc3\xa9/>", b"<x", b"<", b"</", b"<!--", b"<?",
        *(b"<a>" * depth + inner + b"</a>" * depth for depth in (30, 31, 32) for inner in (b"", b"<b/>", b"<!-- -->", b"x")))),
    (b"<smil ", b"<Smil "), (b"<smil ", b"<smile "), (b"<smil ", b"x<smil "), (b"<smil ", b"&#32;<smil "), (b"<smil ", b"\t\r\n <smil "), (b"<smil ", b"\x0c<smil "),
    (b"<smil ", b"<!-- --><smil "), (b"<smil ", b"<smil/><smil "), (b"<smil ", b"<x><smil "), (b"<smil ", b"\0<smil "),
    (b"</smil>", b"</smil>x"), (b"</smil>", b"</smil><!-- --><?x?>"), (b"</smil>", b"</smil><x/>"), (b"</smil>", b"</smil></smil>"), (b"</smil>", b""),
    (b"</smil>", b"</smil>\0"), (b"</smil>", b"</smil><"), (b"</smil>", b"</smil>&"), (b"</smil>", b"</smi>"),
    *((b"</switch>", b"".join(TRACK % (n, 100 + n, n) for n in range(count)) + b"</switch>") for count in (1, 61, 62, 63, 64)),
]


def texts(text):
    for old, new in EDITS:
        if old in text:
            yield f"{new[:40]!r} for {old.decode()}", text.replace(old, new, 1)
    for name, front, back in (
        ("mark of byte order", b"\xef\xbb\xbf", b""), ("two marks", b"\xef\xbb\xbf" * 2, b""), ("half a mark", b"\xef\xbb", b""),
        ("zero bytes", b"", bytes(3)), ("zero bytes and a line feed", b"", b"\0\0\n"), ("zero bytes in front", bytes(2), b""), ("a space in front", b" ", b""),
        ("text behind", b"", b"x"), ("white space behind", b"", b" \t\r\n"), ("another element behind", b"", b"<a/>"), ("a comment behind", b"", b"<!---->\0"),
    ):
        yield name, front + text + back
    for name, short in (("nothing", b""), ("zero bytes alone", bytes(4)), ("a mark alone", b"\xef\xbb\xbf"), ("only smil", b"<smil/>"), ("a comment alone", b"<!---->")):
        yield name, short
    for place in range(0, len(text), max(1, len(text) // 40)):
        yield f"cut at {place}", text[:place]
    plain = b'<smil><body><switch><%s systemBitrate="5"><param name="trackID" value="1"/></%s></switch></body></smil>'
    for kind in (b"video", b"audio", b"textstream"):
        yield f"one {kind.decode()}", plain % (kind, kind)


def text_edits(manifest):
    """The live server manifest box with its text edited."""
    for name, text in texts(manifest[28:]):
        yield name, (28 + len(text)).to_bytes(4, "big") + manifest[4:28] + text
    yield "a wide manifest", (1).to_bytes(4, "big") + b"uuid" + (len(manifest) + 8).to_bytes(8, "big") + manifest[8:]
