"""Files that are no plain text: what they are, in words, and what makes text of them."""

HEADS = [
    (b"\x1f\x8b", "is packed by gzip: unpack it, as by zcat FILE"),
    (b"BZh", "is packed by bzip2: unpack it, as by bzcat FILE"),
    (b"\xfd7zXZ\x00", "is packed by xz: unpack it, as by xzcat FILE"),
    (b"\x28\xb5\x2f\xfd", "is packed by zstd: unpack it, as by zstdcat FILE"),
    (b"PK\x03\x04", "is a zip archive: unpack it, as by unzip -p FILE"),
    (b"\xff\xfe", "is UTF-16 text (it begins with FF FE): make it plain, as by iconv -f UTF-16 -t ASCII//TRANSLIT FILE"),
    (b"\xfe\xff", "is UTF-16 text (it begins with FE FF): make it plain, as by iconv -f UTF-16 -t ASCII//TRANSLIT FILE"),
    (b"\xef\xbb\xbf", "begins with a byte order mark (EF BB BF, UTF-8): take it off, as by tail -c +4 FILE"),
    (b"\xd4\xc3\xb2\xa1", "is a capture of a network: take the sentences out of it first"),
    (b"\x0a\x0d\x0d\x0a", "is a capture of a network: take the sentences out of it first"),
]


def what_is(head):
    """What a file with these first bytes is, where it is no plain text; else None."""
    for mark, words in HEADS:
        if head.startswith(mark):
            return words
    even, odd = head[::2].count(0), head[1::2].count(0)
    if len(head) >= 8 and max(even, odd) * 5 > len(head) * 2 and min(even, odd) * 10 < len(head):
        return "is UTF-16 text without a byte order mark: make it plain, as by iconv -f UTF-16%s -t ASCII//TRANSLIT FILE" % ("LE" if odd > even else "BE")
    return None


NULS = "has NUL bytes, as a file that was open when the power failed: take them out, as by tr -d '\\000' < FILE"
