"""log2record: logs of several forms, what is taken, what is left out, refusals."""
import bz2
import gzip
import lzma
import os
import re
import resource
import socket
import subprocess
import time

import sentences
from support import ToolTest, at_root, program

HDT = "$HEHDT,90.0,T*16"
MWV = "$WIMWV,045.0,R,10.0,N,A*13"
SAMPLE = ["pos0.log", "pos1.log", "pos2.log", "gyro0.log", "gyro1.log", "wind0.log", "grp1.log"]


def gga(utc):
    return sentences.checked(b"GPGGA,%s,4807.038,N,01131.000,E,1,08,0.9,545.4,M,46.9,M,," % utc.encode()).decode()


def tag(text):
    """A TAG block with its sum."""
    return "\\%s*%02X\\" % (text, sentences.sum_of(text.encode()))


class Times(ToolTest):
    """Each form of a log, as the times of its record."""

    def times(self, lines, *words):
        self.file("log", "".join(line + "\n" for line in lines))
        record, _ = self.tool("log2record", "gyro0=log", *words)
        return [int(line.split(" ")[0]) for line in record.splitlines()]

    def test_stamps(self):
        forms = [
            ["1764506119.250 " + HDT, "1764506120.750 " + HDT],
            ["1764506119250," + HDT, "1764506120750," + HDT],
            ["1764506119250000\t" + HDT, "1764506120750000\t" + HDT],
            ["2025-11-30T12:35:19.250Z " + HDT, "2025-11-30T12:35:20.750Z " + HDT],
            ["2025-11-30T12:35:19,25+01:00;" + HDT, "2025-11-30T12:35:20,75+01:00;" + HDT],
            ["20251130T123519.25Z " + HDT, "20251130T123520.75Z " + HDT],
            ["2025-11-30 12:35:19.250000: " + HDT, "2025-11-30 12:35:20.750000: " + HDT],
            ["2025-11-30 12:35:19 1764506119.250000: " + HDT, "2025-11-30 12:35:20 1764506120.750000: " + HDT],
            ["[2025/11/30 12:35:19.25] " + HDT, "[2025/11/30 12:35:20.75] " + HDT],
            ['"2025-11-30 12:35:19.25","%s"' % HDT, '"2025-11-30 12:35:20.75","%s"' % HDT],
            ["12:35:19.250 " + HDT, "12:35:20.750 " + HDT],
            ["9.25 " + HDT, "10.75 " + HDT],
        ]
        for lines in forms:
            with self.subTest(lines[0]):
                self.assertEqual([250, 1750], self.times(lines))

    def test_whole_seconds(self):
        self.assertEqual([0, 2000], self.times(["Sun Nov 30 12:35:19 2025: " + HDT, "Sun Nov 30 12:35:21 2025: " + HDT]))
        self.assertEqual([0, 2000], self.times([tag("s:HE01,c:1764506119") + HDT, tag("c:1764506121") + HDT]))

    def test_stamps_behind(self):
        for lines in ([HDT + ",1764506119.25", HDT + ",1764506120.75"], [HDT + "\t2025-11-30T12:35:19.25Z", HDT + "\t2025-11-30T12:35:20.75Z"],
                      [HDT + " [12:35:19.25]", HDT + " [12:35:20.75]"]):
            with self.subTest(lines[0]):
                self.assertEqual([250, 1750], self.times(lines))
        self.file("log", "%s,1764506119.25\n%s 1764506119.75\n" % (HDT, HDT[:9]))
        record, told = self.tool("log2record", "gyro0=log")
        self.assertEqual("250 gyro0 %s\n750 gyro0 %s\n" % (HDT, HDT[:9]), record)
        self.assertIn("gyro0 from log, by time stamps behind: 2 taken (1 damaged), 0 left out", told)

    def test_stamps_of_a_form_that_is_said(self):
        for form, one, two in [("%d.%m.%Y %H:%M:%S,%f", "30.11.2025 12:35:19,25", "30.11.2025  12:35:20,75"), ("%m/%d/%y %I:%M:%S.%f %p", "11/30/25 12:35:19.25 PM", "11/30/25 12:35:20.75 PM"),
                               ("UTC %Y%j%H%M%S.%f", "UTC 2025334123519.250", "UTC 2025334123520.750"), ("t=%s.%f;", "x t=1764506119.25; y", "x t=1764506120.75; y"),
                               ("%Hh%Mm%S.%fs", "12h35m19.25s", "12h35m20.75s"), ("%d %b %Y %H:%M:%S.%f %z", "30 nov 2025 13:35:19.25 +01:00", "30 nov 2025 12:35:20.75 Z")]:
            with self.subTest(form):
                self.assertEqual([250, 1750], self.times([one + " " + HDT, two + " " + HDT], "--time", form))
                self.assertEqual([250, 1750], self.times([HDT + " " + one, HDT + " " + two], "--time", "gyro0=" + form))
        self.file("a", "30.11.2025 13:35:19 %s\n" % HDT)
        self.file("b", "2025-11-30T12:35:21Z %s\n" % HDT)
        record, _ = self.tool("log2record", "gyro0=a", "gyro1=b", "--time", "gyro0=%d.%m.%Y %H:%M:%S", "--zone", "+01:00")
        self.assertEqual("0 gyro0 %s\n2000 gyro1 %s\n" % (HDT, HDT), record)
        for form in ("%Q", "%H", "%d.%m %H:%M:%S", "%H:%M %H"):
            self.tool("log2record", "gyro0=a", "--time", form, status=2)

    def test_zone(self):
        self.file("a", "2025-11-30 13:35:19 %s\n" % HDT)
        self.file("b", "2025-11-30T12:35:21Z %s\n" % HDT)
        record, _ = self.tool("log2record", "gyro0=a", "gyro1=b", "--zone", "+01:00")
        self.assertEqual("0 gyro0 %s\n2000 gyro1 %s\n" % (HDT, HDT), record)

    def test_midnight(self):
        self.assertEqual([500, 1500], self.times(["23:59:59.5 " + HDT, "00:00:00.5 " + HDT]))

    def test_utc_of_gga(self):
        lines = [HDT, gga("235959.50"), HDT, gga("000000.50"), HDT, gga(""), HDT]
        self.assertEqual([500, 1500, 1500], self.times(lines))

    def test_utc_of_damaged_gga_counts_for_nothing(self):
        damaged = gga("123520")[:-2] + "00"
        self.assertEqual([0, 0], self.times([gga("123519"), HDT, damaged, HDT]))

    def test_utc_beside_stamps(self):
        line = "7.0 " + gga("123519")
        self.assertEqual([0, 1000], self.times([line, HDT, "8.0 " + gga("123520"), HDT], "--utc", "gyro0"))

    def test_period(self):
        self.assertEqual([0, 100, 200], self.times([HDT] * 3, "--every", "gyro0=100"))
        self.assertEqual([0, 100], self.times(["7 " + HDT, "8 " + MWV, "7 " + HDT], "--every", "gyro0=100"))


class Records(ToolTest):
    """Whole records."""

    def test_clocks_side_by_side(self):
        self.file("dated", "2025-11-30T23:59:58.5Z %s\n2025-12-01T00:00:00.5Z %s\n" % (gga("235958"), gga("000000")))
        self.file("day", "00:00:00.2 %s\n" % HDT)
        self.file("zero", "%s\n%s\n" % (MWV, MWV))
        record, told = self.tool("log2record", "pos0=dated", "gyro0=day", "wind0=zero", "--every", "wind0=1000")
        self.assertEqual(["500 pos0", "500 wind0", "1500 wind0", "2200 gyro0", "2500 pos0"],
                         [" ".join(line.split(" ")[:2]) for line in record.splitlines()])
        self.assertIn("record: 5 lines over 2.500 s, from 2025-11-30T23:59:58.000Z on", told)

    def test_what_is_taken(self):
        lines = ["1 $GPGSV,1*7F", "2 nothing here", "3 " + gga("1"), "4 " + gga("1")[:29], "5 $", "6 !AIVDM,1*00", "x " + gga("1"), "12:00:00 " + gga("1"),
                 "7 L 100 -20", "8 $GPG\x01A*00"]
        self.file("log", "\n".join(lines))
        record, told = self.tool("log2record", "pos0=log")
        self.assertEqual(["0 pos0 " + gga("1"), "1000 pos0 " + gga("1")[:29], "2000 pos0 $", "4000 pos0 L 100 -20", "5000 pos0 $GPG\x01A*00"],
                         record.splitlines())
        for line in ["pos0 from log, by time stamps: 5 taken (3 damaged), 5 left out", "  left out, a time of another kind: 1, the first in line 8",
                     "  left out, another formatter: 1, the first in line 1", "  left out, no sentence: 2, the first in line 2",
                     "  left out, no time: 1, the first in line 7"]:
            self.assertIn(line, told.splitlines())

    def test_one_file_for_several_wires(self):
        self.file("log", "1 %s\n1 %s\n1 %s\n" % (gga("1"), HDT, MWV[:-2] + "00"))
        record, _ = self.tool("log2record", "wind1=log", "gyro1=log", "pos1=log")
        self.assertEqual("0 wind1 %s\n0 gyro1 %s\n0 pos1 %s\n" % (MWV[:-2] + "00", HDT, gga("1")), record)

    def test_talkers_and_sources_of_one_file(self):
        other = sentences.checked(gga("1")[1:-3].replace("GP", "GN").encode()).decode()
        self.file("log", "".join("%d %s\n%d %s\n" % (second, gga("1"), second, other) for second in range(2)))
        record, told = self.tool("log2record", "pos0=log@GP", "pos1=log@GN")
        self.assertEqual(["0 pos0 $GP", "0 pos1 $GN", "1000 pos0 $GP", "1000 pos1 $GN"], [line[:line.index("$") + 3] for line in record.splitlines()])
        self.assertIn("  left out, another talker: 2, the first in line 2", told.splitlines())
        self.file("tags", "".join(tag("s:%s,c:%d" % (name, 1764506119 + at)) + HDT + "\n" for at, name in enumerate(["HE01", "HE02", "HE01"])) + "%s%s\n" % (tag("c:1764506130"), HDT))
        record, told = self.tool("log2record", "gyro0=tags@s:HE01", "gyro1=tags@s:HE02")
        self.assertEqual("0 gyro0 %s\n1000 gyro1 %s\n2000 gyro0 %s\n" % (HDT, HDT, HDT), record)
        self.assertIn("  left out, another source: 2, the first in line 2", told.splitlines())
        self.file("odd@GP", "1 %s\n" % HDT)
        self.assertEqual("0 gyro0 %s\n" % HDT, self.tool("log2record", "gyro0=odd@GP")[0])

    def test_tag_blocks_are_checked(self):
        good = tag("s:HE01,c:1764506119")
        self.file("log", "%s%s\n%s%s\n%s%s\n" % (good, HDT, good.replace("19*", "29*"), HDT, tag("s:HE01,c:1764506120").replace("*", ""), HDT))
        record, told = self.tool("log2record", "gyro0=log")
        self.assertEqual("0 gyro0 %s\n" % HDT, record)
        self.assertIn("  left out, a damaged TAG block: 2, the first in line 2", told.splitlines())
        self.file("outer", "2025-11-30T12:35:19.5Z %s%s\n" % (tag("s:HE01"), HDT))
        self.assertEqual("500 gyro0 %s\n" % HDT, self.tool("log2record", "gyro0=outer")[0])

    def test_two_sentences_in_one_line(self):
        self.file("log", "1 %s%s\n2 %s %s\n3 %s%s\n4 %s 4.5 %s\n" % (gga("1"), HDT, HDT, HDT, HDT[:9], HDT, HDT, HDT))
        record, _ = self.tool("log2record", "gyro0=log", "pos0=log")
        self.assertEqual(["0 gyro0 " + HDT, "0 pos0 " + gga("1"), "1000 gyro0 " + HDT, "1000 gyro0 " + HDT, "2000 gyro0 " + HDT[:9], "2000 gyro0 " + HDT,
                          "3000 gyro0 " + HDT, "3500 gyro0 " + HDT], record.splitlines())

    def test_held_readings(self):
        """A sensor of a little less than a cycle's rate misses a cycle now and then."""
        self.file("wind", "".join("%.2f %s\n" % (10 + second * 1.05, MWV) for second in range(41)))
        self.file("gyro", "".join("%d.0 %s\n" % (10 + second, HDT) for second in range(43)))
        record, told = self.tool("log2record", "wind0=wind", "gyro0=gyro")
        self.assertIn("wind0: 2 cycles of 1 s had no reading, 2 of them in gaps of at most 1: --hold wind0=1 repeats the one before into those", told.splitlines())
        self.assertEqual(41, sum(" wind0 " in line for line in record.splitlines()))
        held, told = self.tool("log2record", "wind0=wind", "gyro0=gyro", "--hold", "wind0=2")
        self.assertEqual(set(range(43)), {int(line.split(" ")[0]) // 1000 for line in held.splitlines() if " wind0 " in line})
        self.assertIn("wind0: the reading before was repeated into 2 cycles of 1 s without one", told.splitlines())
        times = [int(line.split(" ")[0]) for line in held.splitlines()]
        self.assertEqual(times, sorted(times))
        self.assertEqual(sorted(record.splitlines()), sorted(line for line in held.splitlines() if not line.split(" ")[0].endswith("999")))

    def test_no_more_is_held_than_was_said(self):
        self.file("wind", "10 %s\n20 %s\n" % (MWV, MWV[:-2] + "00"))
        self.file("gyro", "".join("%d.0 %s\n" % (10 + second, HDT) for second in range(12)))
        held, _ = self.tool("log2record", "wind0=wind", "gyro0=gyro", "--hold", "wind0=3", "--hold", "gyro0=1")
        self.assertEqual(["0", "1999", "2999", "3999", "10000"], [line.split(" ")[0] for line in held.splitlines() if " wind0 " in line])
        held, _ = self.tool("log2record", "wind0=wind", "gyro0=gyro", "--hold", "wind0=3", "--cycle", "500")
        self.assertEqual(["0", "999", "1499", "1999", "10000"], [line.split(" ")[0] for line in held.splitlines() if " wind0 " in line])

    def test_files_are_named_by_their_wires(self):
        self.file("gyro1.log", "1 %s\n" % HDT)
        self.file("gyro2-raw", "1 %s\n" % HDT)
        record, _ = self.tool("log2record", "gyro1.log", "gyro2-raw", "gyro0=gyro1.log")
        self.assertEqual("0 gyro1 %s\n0 gyro2 %s\n0 gyro0 %s\n" % (HDT, HDT, HDT), record)

    def test_all_formatters(self):
        self.file("log", "1 $GPVTG,1*65\n1 %s\n" % HDT)
        self.assertEqual(2, len(self.tool("log2record", "pos0=log", "--all")[0].splitlines()))

    def test_long_sentences_stay_damage(self):
        self.file("log", "1 $GPGGA," + "7" * 400 + "*00\n")
        record, told = self.tool("log2record", "pos0=log")
        self.assertEqual("0 pos0 $GPGGA," + "7" * 163 + "\n", record)
        self.assertIn("cut to 170 bytes, as damage: 1", told)

    def test_a_part_of_the_time(self):
        self.file("log", "".join("2025-11-30T12:00:%02dZ %s\n" % (second, HDT) for second in range(10)))
        record, told = self.tool("log2record", "gyro0=log", "--from", "12:00:02.5", "--to", "2025-11-30T12:00:05Z")
        self.assertEqual(["500", "1500"], [line.split(" ")[0] for line in record.splitlines()])
        self.assertIn("left out, before --from: 3, the first in line 1", told)
        self.assertIn("left out, at --to or later: 5, the first in line 6", told)

    def test_gaps(self):
        self.file("log", "".join("%d %s\n" % (second, HDT) for second in [1, 2, 9, 10, 30]))
        _, told = self.tool("log2record", "gyro0=log")
        self.assertIn("gaps of more than 5 s: 2, the longest 20.0 s before line 5, 7.0 s before line 3", told)
        self.assertIn("gaps of more than 0.5 s: 4", self.tool("log2record", "gyro0=log", "--gap", "0.5")[1])

    def test_sample(self):
        done = subprocess.run([at_root("tools", "log2record"), *SAMPLE], cwd=at_root("samples", "log"), capture_output=True, check=True)
        lines = done.stdout.decode().splitlines()
        times = [int(line.split(" ")[0]) for line in lines]
        self.assertEqual(times, sorted(times))
        self.assertEqual((1779, 0, 299), (len(lines), times[0], times[-1] // 1000))
        self.assertTrue(all(re.fullmatch("[0-9]+ (pos[012]|gyro[01]|wind0|grp1) .+", line) and len(line) <= 192 for line in lines))

    def test_memory_does_not_grow(self):
        most = []
        for count in (2000, 100000):
            for wire in ("gyro0", "gyro1"):
                with open(os.path.join(self.folder, wire), "w", encoding="ascii") as file:
                    file.writelines("%d.%s %s\n" % (second, wire[-1], HDT) for second in range(count))
            subprocess.run([at_root("tools", "log2record"), "gyro0=gyro0", "gyro1=gyro1"], cwd=self.folder, check=True,
                           stdout=subprocess.DEVNULL, stderr=subprocess.DEVNULL)
            most.append(resource.getrusage(resource.RUSAGE_CHILDREN).ru_maxrss)
        self.assertLess(most[1] - most[0], 4000)      # kB


class Refusals(ToolTest):
    """Each refusal names file and line, and ends with status 1."""

    def refused(self, said, *words):
        record, told = self.tool("log2record", *words, status=1)
        self.assertTrue(told.startswith("log2record: " + said), told)
        return record

    def test_falling_time(self):
        self.file("log", "5 %s\n7 %s\n6.5 %s\n8 %s\n" % (HDT, HDT, HDT, HDT))
        self.refused("log 3: the time falls, from 7.000 s to 6.500 s", "gyro0=log")
        for back, times in (("leave", ["0", "2000", "3000"]), ("hold", ["0", "2000", "2000", "3000"])):
            record, _ = self.tool("log2record", "gyro0=log", "--back", back)
            self.assertEqual(times, [line.split(" ")[0] for line in record.splitlines()])

    def test_no_time(self):
        self.file("log", "# a log\n%s\n" % HDT)
        self.refused("log 2: no time stamps, and no sound GGA with a time", "gyro0=log")
        self.file("odd", "yesterday %s\n" % HDT)
        self.refused("odd 1: no time that can be read stands before the sentence: 'yesterday '", "gyro0=odd")

    def test_files(self):
        self.refused("gone: No such file or directory", "gyro0=gone")
        self.file("empty", "")
        self.refused("no sentence was taken from any file", "gyro0=empty")
        self.file("log", "1 %s\n" % HDT)
        self.refused("no file is given for gyro1", "gyro0=log", "--every", "gyro1=10")

    def test_files_that_are_no_text(self):
        line = "1764506119.25 %s\n" % HDT
        for content, said in [(gzip.compress(line.encode()), "log: is packed by gzip: unpack it, as by zcat log"), (bz2.compress(line.encode()), "log: is packed by bzip2"),
                              (lzma.compress(line.encode()), "log: is packed by xz"), (line.encode("utf-16"), "log: is UTF-16 text (it begins with FF FE)"),
                              (line.encode("utf-16-be"), "log: is UTF-16 text without a byte order mark: make it plain, as by iconv -f UTF-16BE"),
                              (line.encode("utf-8-sig"), "log: begins with a byte order mark (EF BB BF, UTF-8)"),
                              (line.encode() + bytes(512) + line.encode(), "log 2: has NUL bytes")]:
            self.file("log", content)
            self.refused(said, "gyro0=log")

    def test_words(self):
        for words in ([], ["gyro0=log", "--hold", "gyro0=0"], ["grp0=log", "--hold", "grp0=1"], ["gyro0=log", "--cycle", "50"], ["gyro0=log", "--follow", "--back", "hold"], ["gyro3=log"], ["log"], ["gyro3.log"], ["gyro.log"], ["gyro0="], ["gyro0=log", "--every", "gyro0=x"], ["gyro0=log", "--zone", "1"],
                      ["gyro0=log", "--from", "noon"], ["gyro0=log", "--back", "no"]):
            with self.subTest(words):
                self.tool("log2record", *words, status=2)

    def test_help(self):
        self.assertIn("log2record WIRE=FILE.. > RECORD", self.tool("log2record", "--help")[0])


class Followed(ToolTest):
    """Lines as they arrive."""

    def begun(self, *words):
        """The tool, following."""
        running = subprocess.Popen([at_root("tools", "log2record"), "--follow", *words], cwd=self.folder, stdin=subprocess.PIPE, stdout=subprocess.PIPE, stderr=subprocess.PIPE)
        self.addCleanup(lambda: [end.close() for end in (running.stdin, running.stdout, running.stderr)])
        self.addCleanup(lambda: running.poll() is None and (running.kill(), running.wait()))
        return running

    def test_a_pipe_and_the_network(self):
        port = free_port()
        running = self.begun("gyro0=/dev/stdin", "wind0=udp:127.0.0.1:%d" % port, "--cycle", "300")
        running.stdin.write(HDT.encode() + b"\n$HEHDT,9")
        running.stdin.flush()
        self.assertRegex(running.stdout.readline().decode(), r"^[0-9]+ gyro0 \$HEHDT,90.0,T\*16$")
        with socket.socket(socket.AF_INET, socket.SOCK_DGRAM) as sender:
            sender.sendto(b"UdPbC\0" + tag("s:WI01").encode() + MWV.encode() + b"\r\n", ("127.0.0.1", port))
        self.next_of(running, " wind0 " + MWV)
        running.stdin.write(b"0.0,T*16\n")
        running.stdin.flush()
        self.next_of(running, " gyro0 " + HDT)
        running.terminate()
        told = running.stderr.read().decode()
        self.assertEqual(0, running.wait(20))
        self.assertIn("gyro0 from /dev/stdin, by arrival: 2 taken, 0 left out", told)
        self.assertRegex(told, "ticks, for cycles in which nothing came: [0-9]+")

    def next_of(self, running, wanted):
        """Reads on, past ticks, to a line that ends so."""
        line = running.stdout.readline().decode().rstrip("\n")
        while line.endswith(" pos0 G tick"):
            line = running.stdout.readline().decode().rstrip("\n")
        self.assertTrue(line.endswith(wanted), line)

    def test_a_tick_where_all_are_silent(self):
        os.mkfifo(os.path.join(self.folder, "pipe"))
        running = self.begun("gyro0=pipe", "--cycle", "200")
        end = os.open(os.path.join(self.folder, "pipe"), os.O_WRONLY)
        os.write(end, HDT.encode() + b"\n")
        self.next_of(running, " gyro0 " + HDT)
        times = [int(running.stdout.readline().split(b" ")[0]) for _ in range(4)]
        for one, other in zip(times, times[1:]):
            self.assertGreaterEqual(other - one, 200)
        os.close(end)
        self.assertEqual(0, running.wait(20))

    def test_it_ends_where_nobody_reads(self):
        running = self.begun("gyro0=/dev/stdin", "--cycle", "100")
        running.stdout.close()
        deadline = time.monotonic() + 20
        while running.poll() is None and time.monotonic() < deadline:
            time.sleep(0.05)
        self.assertEqual(1, running.wait(20))
        self.assertIn(b"log2record: the output can't be written", running.stderr.read())

    def test_sources_that_are_none(self):
        for name, said in (("gone", "gone: No such file"), ("udp:0", "udp:0: wanted is udp:PORT"), (".", ".: Is a directory")):
            _, told = self.tool("log2record", "--follow", "gyro0=" + name, status=1)
            self.assertIn(said, told)

    def test_the_program_takes_ticks(self):
        """A replay of what was followed has a block for each silent cycle."""
        self.file("record", "0 gyro0 %s\n1000 pos0 G tick\n2000 pos0 G tick\n" % HDT)
        self.file("script", "")
        done = subprocess.run(program() + ["replay", at_root("plants", "S1.toml"), "record", "script"], cwd=self.folder, capture_output=True, check=True)
        self.assertEqual("end 3", done.stdout.decode().splitlines()[-1])
        self.assertNotIn("damage", done.stdout.decode())


def free_port():
    with socket.socket(socket.AF_INET, socket.SOCK_DGRAM) as one:
        one.bind(("127.0.0.1", 0))
        return one.getsockname()[1]
