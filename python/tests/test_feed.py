"""Feeds: import, export and the board; the letter's story; every fault of a feed with its file, line and sentence."""
import csv
import io
import json
import shutil
import unittest
import zipfile

from lukhandro.text import Text
from .support import EXAMPLES
from .test_command import Room

FEED = EXAMPLES / "feed"


class FeedRoom(Room):
    """Each test may change a copy of the sample feed."""

    def setUp(self):
        super().setUp()
        self.feed = self.room / "feed"
        shutil.copytree(FEED, self.feed)

    def change(self, file, old, new):
        place = self.feed / file
        text = place.read_text()
        self.assertIn(old, text)
        place.write_text(text.replace(old, new, 1))

    def zipped(self, inside=""):
        place = self.room / "feed.zip"
        with zipfile.ZipFile(place, "w", zipfile.ZIP_DEFLATED) as room:
            for path in sorted(self.feed.iterdir()):
                room.write(path, inside + path.name)
        return place


class TheLetter(FeedRoom):
    """A window to 22:00:00 every 1800 s: no departure at 22:00:00, 32 departures, the last at 21:30:00."""

    def test_the_sheet(self):
        text, _ = self.typed("import", FEED, "--route", "STBA")
        out, _ = self.typed("sheet", "-", "STBA.departures", "STBA.last", stdin=text)
        self.assertEqual(out, "STBA.departures        32\nSTBA.last        21:30:00\n13 values, none of them blank\n")

    def test_the_board(self):
        out, _ = self.typed("board", FEED, "--stop", "STAGECOACH", "--route", "STBA", "--date", "2007-06-03", "--csv")
        times = [line["time"] for line in csv.DictReader(io.StringIO(out))]
        self.assertEqual((len(times), times[0], times[-1], "22:00:00" in times), (32, "6:00:00", "21:30:00", False))

    def test_the_next_headway_may_start_then(self):
        with open(self.feed / "frequencies.txt", "a") as file:
            file.write("STBA,22:00:00,24:00:00,3600\n")
        out, _ = self.typed("board", self.feed, "--stop", "STAGECOACH", "--route", "STBA", "--date", "20070603", "--json")
        times = [d["time"] for d in json.loads(out)["departures"]]
        self.assertEqual((len(times), times[-3:]), (34, ["21:30:00", "22:00:00", "23:00:00"]))
        self.assertEqual(times.count("22:00:00"), 1)


class Import(FeedRoom):
    def test_sunday(self):
        text, _ = self.typed("import", FEED, "--date", "2007-06-03")
        model = Text(text)
        values = dict(zip(model.names, model.build().values()))
        self.assertEqual((values["departures"], values["last"], values["clashes"], len(values)), (136, 77400, 11, 70))
        self.assertEqual((values["CITY.departures"], values["CITY.CITY1.departures"], values["CITY.clashes"]), (104, 52, 10))
        self.assertEqual((values["CITY.CITY2.w3.start"], values["CITY.CITY2.w3.end"], values["CITY.CITY2.w3.headway"]), (36000, 57599, 1800))

    def test_choices(self):
        for words, windows in ((("--date", "20070603"), 11), (("--route", "CITY"), 10), (("--route", "40"), 10), (("--trip", "CITY1"), 5),
                               (("--service", "FULLW", "--trip", "STBA", "--trip", "CITY2"), 6)):
            out, _ = self.typed("import", FEED, *words)
            self.assertEqual(out.count("= DEPARTURES("), windows, words)
        for words, sentence in ((("--date", "20070604"), "no window is of Monday 2007-06-04"), (("--route", "99"), "no route 99"),
                                (("--trip", "AB1"), "no window of a trip AB1"), (("--service", "WE"), "no trip with a window has the service WE"),
                                (("--date", "20070603", "--route", "AB"), "no window is of Sunday 2007-06-03, route AB")):
            self.assertIn(sentence, self.typed("import", FEED, *words, status=1)[1])
        self.assertIn("no date", self.typed("import", FEED, "--date", "2007-02-30", status=2)[1])

    def test_zip(self):
        for inside in ("", "sample-feed/"):
            self.assertEqual(self.typed("import", self.zipped(inside))[0].split("\n", 1)[1], self.typed("import", FEED)[0].split("\n", 1)[1])

    def test_names(self):
        """Ids that are no names become names, no two alike, and a quoted comma is no end of a field."""
        self.change("trips.txt", "STBA,FULLW,STBA,", 'STBA,FULLW,"ST,BA",')
        self.change("trips.txt", "CITY,FULLW,CITY1,", "12,FULLW,ST BA,")
        self.change("routes.txt", "CITY,DTA,40", "12,DTA,40")
        text = (self.feed / "frequencies.txt").read_text().replace("STBA,", '"ST,BA",').replace("CITY1", "ST BA").replace("CITY2", "AB1")
        (self.feed / "frequencies.txt").write_text(text)
        names = Text(self.typed("import", self.feed)[0]).names
        self.assertIn("STBA.ST_BA.w1.start", names)
        self.assertIn("r12.ST_BA_2.w5.last", names)
        self.assertIn("AB.AB1.departures", names)

    def test_marks_and_columns(self):
        """A byte order mark, CRLF, other columns and another order of them, times past midnight."""
        (self.feed / "frequencies.txt").write_bytes("\ufeffheadway_secs,exact_times,extra,end_time,trip_id,start_time\r\n"
                                                    '600,1,"a ""b"",\r\nc",26:00:00,STBA,23:00:00\r\n\r\n'.encode())
        out, _ = self.typed("import", self.feed)
        self.assertIn("STBA.STBA.w1.end        = 26:00:00\n", out)

    def test_a_long_headway(self):
        self.change("frequencies.txt", "22:00:00,1800", "22:00:00,18000")
        out, _ = self.typed("import", self.feed, "--trip", "STBA")
        self.assertIn("STBA.STBA.w1.headway    = 5:00:00  in 0:00:01..5:00:00\n", out)
        self.assertEqual(Text(out).build().values()[3], 4)

    def test_trees(self):
        """More than 256 inputs are taken in parts, and the sums are right."""
        with open(self.feed / "frequencies.txt", "w") as file:
            file.write("trip_id,start_time,end_time,headway_secs\n" + "".join(
                f"STBA,{k // 10:02}:{6 * (k % 10):02}:00,{k // 10:02}:{6 * (k % 10) + 5:02}:00,60\n" for k in range(600)))
        out, _ = self.typed("import", self.feed)
        text = Text(out)
        values = dict(zip(text.names, text.build().values()))
        self.assertEqual((values["departures"], values["STBA.STBA.departures.part3"], values["last"]), (3000, 440, 59 * 3600 + 58 * 60))
        self.assertIn("# STBA.clashes is left out: 600 starts, and at most 256 can be compared", out)

    def many(self, routes, windows):
        """A feed of many routes with windows each."""
        with open(self.feed / "routes.txt", "w") as file:
            file.write("route_id,route_short_name\n" + "".join(f"{r},{r}\n" for r in range(routes)))
        with open(self.feed / "trips.txt", "w") as file:
            file.write("route_id,service_id,trip_id\n" + "".join(f"{r},FULLW,t{r}\n" for r in range(routes)))
        with open(self.feed / "frequencies.txt", "w") as file:
            file.write("trip_id,start_time,end_time,headway_secs\n" + "".join(
                f"t{r},{k:02}:00:00,{k + 1:02}:00:00,600\n" for r in range(routes) for k in range(windows)))

    def test_too_many_variables(self):
        self.many(50, 20)
        out, err = self.typed("import", self.feed, status=1)
        self.assertEqual(out, "")
        self.assertIn("would have 5,252 variables, and 4,096 are the most: 1,000 windows of 50 routes. Cut it with --route, as --route 0;", err)
        self.assertIn("--by-route FOLDER writes a model for each route", err)
        self.assertIn("clashes", self.typed("import", self.feed, "--route", "7")[0])

    def test_too_many_variables_of_one_route(self):
        self.many(1, 900)
        self.assertIn("Cut it with --trip, as --trip t0", self.typed("import", self.feed, status=1)[1])
        self.assertIn("cut it with --trip", self.typed("import", self.feed, "--by-route", self.room / "out", status=1)[1])

    def test_by_route(self):
        self.many(50, 20)
        _, err = self.typed("import", self.feed, "--by-route", self.room / "out")
        self.assertIn("wrote 50 models", err)
        self.assertEqual(len(list((self.room / "out").iterdir())), 50)
        self.assertIn("r7.departures       120", self.typed("sheet", self.room / "out" / "r7.lkt", "r7.departures", "r7.last")[0])


class Export(FeedRoom):
    def planned(self, **moves):
        text, _ = self.typed("import", self.feed)
        place = self.file("planned.lkt", text)
        script = "try " + " ".join(f"{name}={value}" for name, value in moves.items()) + "\nkeep\nsave\n"
        self.typed("plan", place, stdin=script if moves else "")
        return place

    def test_only_the_window_changes(self):
        place = self.planned(**{"CITY.CITY1.w2.headway": "0:12:00", "STBA.STBA.w1.end": "23:00:00"})
        before = (FEED / "frequencies.txt").read_text()
        want = before.replace("CITY1,8:00:00,9:59:59,600", "CITY1,8:00:00,9:59:59,720").replace("STBA,6:00:00,22:00:00,1800", "STBA,6:00:00,23:00:00,1800")
        self.assertEqual(self.typed("export", self.feed, place, "-")[0], want)
        _, err = self.typed("export", self.feed, place, self.room / "out")
        self.assertIn("11 windows of the model, 2 of them other than in", err)
        for path in FEED.iterdir():
            got = (self.room / "out" / path.name).read_bytes()
            self.assertEqual(got, want.encode() if path.name == "frequencies.txt" else path.read_bytes(), path.name)

    def test_zip(self):
        place = self.planned(**{"CITY.CITY1.w2.headway": "0:12:00"})
        self.typed("export", self.zipped(), place, self.room / "out.zip")
        with zipfile.ZipFile(self.room / "out.zip") as room:
            self.assertEqual(sorted(room.namelist()), sorted(path.name for path in FEED.iterdir()))
            self.assertIn(b"CITY1,8:00:00,9:59:59,720\n", room.read("frequencies.txt"))
            self.assertEqual(room.read("trips.txt"), (FEED / "trips.txt").read_bytes())
        self.typed("export", self.room / "out.zip", place, self.room / "back")
        self.assertEqual(sorted(path.name for path in (self.room / "back").iterdir()), sorted(path.name for path in FEED.iterdir()))

    def test_a_zip_that_leads_elsewhere(self):
        place, source = self.planned(), self.zipped()
        for name in ("../evil.txt", "/evil.txt", "a/../../evil.txt"):
            with zipfile.ZipFile(source, "a") as room:
                room.writestr(name, "evil")
            self.assertIn("would lie outside", self.typed("export", source, place, self.room / "deep" / "out", status=1)[1])
        self.assertFalse((self.room / "deep" / "evil.txt").exists())

    def test_in_place(self):
        place = self.planned(**{"CITY.CITY1.w2.headway": "0:12:00"})
        self.typed("export", self.feed, place, self.feed)
        self.assertIn("9:59:59,720", (self.feed / "frequencies.txt").read_text())
        self.assertEqual((self.feed / "trips.txt").read_bytes(), (FEED / "trips.txt").read_bytes())

    def test_fields_as_they_were_written(self):
        (self.feed / "frequencies.txt").write_bytes('\ufefftrip_id,start_time,end_time,headway_secs,x\r\nSTBA,"06:00:00",08:00:00,600,"a,""b"\r\n'.encode())
        place = self.planned(**{"STBA.STBA.w1.start": "7:00:00", "STBA.STBA.w1.end": "9:30:00"})
        out = self.room / "out"
        self.typed("export", self.feed, place, out)
        self.assertEqual((out / "frequencies.txt").read_bytes(),
                         '\ufefftrip_id,start_time,end_time,headway_secs,x\r\nSTBA,"07:00:00",09:30:00,600,"a,""b"\r\n'.encode())

    def test_refused(self):
        overlap = self.planned(**{"CITY.CITY1.w1.end": "8:30:00"})
        self.assertIn("CITY.CITY1.w1 overlaps another window of its trip", self.typed("export", self.feed, overlap, "-", status=1)[1])
        negative = self.planned(**{"CITY.CITY1.w1.start": "-0:30:00"})
        self.assertIn("CITY.CITY1.w1.start is -0:30:00, which frequencies.txt cannot hold", self.typed("export", self.feed, negative, "-", status=1)[1])
        other = self.file("o.lkt", "CITY.CITY9.w1.start = 5\n")
        self.assertIn("the feed has no such window", self.typed("export", self.feed, other, "-", status=1)[1])
        self.assertIn("has no window of the feed", self.typed("export", self.feed, EXAMPLES / "sunday.lkt", "-", status=1)[1])


class Board(FeedRoom):
    def board(self, *words, status=0):
        return self.typed("board", self.feed, "--date", "2007-06-03", *words, status=status)

    def test_table(self):
        out = self.board("--stop", "NADAV")[0].splitlines()
        self.assertEqual(out[:3], ["North Ave / D Ave N (Demo), Sunday 2007-06-03", " 6  14 16 44 46", " 7  14 16 44 46"])
        self.assertEqual(out[-2:], ["40 City", "104 departures, the last at 21:46:00"])
        self.assertEqual(self.board("--stop", "North Ave / D Ave N (Demo)")[0].splitlines(), out)

    def test_trips_without_windows(self):
        out = self.board("--stop", "BEATTY_AIRPORT")[0]
        self.assertEqual(out.splitlines()[1], " 8  00a 00b")
        self.assertIn("b 10 Airport - Bullfrog: to Bullfrog\n3 departures, the last at 13:00:00\n", out)

    def test_nothing_departs_where_a_trip_ends(self):
        self.assertIn("no departures", self.board("--stop", "BEATTY_AIRPORT", "--route", "STBA")[0])
        self.change("stop_times.txt", "STBA,6:00:00,6:00:00,STAGECOACH,1,,,,", "STBA,6:00:00,6:00:00,STAGECOACH,1,,1,,")
        self.assertIn("no departures", self.board("--stop", "STAGECOACH", "--route", "STBA")[0])

    def test_stops_in_any_order_of_lines(self):
        head, *lines = (self.feed / "stop_times.txt").read_text().splitlines(True)
        before = self.board("--stop", "NADAV")[0]
        (self.feed / "stop_times.txt").write_text(head + "".join(reversed(lines)))
        self.assertEqual(self.board("--stop", "NADAV")[0], before)

    def test_day_after(self):
        with open(self.feed / "frequencies.txt", "a") as file:
            file.write("STBA,23:30:00,25:00:00,1800\n")
        out = self.board("--stop", "STAGECOACH", "--route", "30")[0].splitlines()
        self.assertEqual(out[-5:], ["23  30", " 0* 00 30", "30 Stagecoach - Airport Shuttle: Shuttle", "* on the day after", "35 departures, the last at 24:30:00"])

    def test_dates(self):
        out, _ = self.typed("board", FEED, "--stop", "STAGECOACH", "--date", "2007-06-04")
        self.assertIn("Monday 2007-06-04\nno departures\n", out)
        for outside in ("2006-12-31", "2011-01-01"):
            self.assertIn("no departures", self.typed("board", FEED, "--stop", "STAGECOACH", "--date", outside)[0])
        for inside in ("2007-01-01", "2010-12-31"):
            self.assertIn("84 departures", self.typed("board", FEED, "--stop", "STAGECOACH", "--date", inside)[0])
        out, _ = self.typed("board", FEED, "--stop", "BEATTY_AIRPORT", "--date", "2007-06-05")
        self.assertIn("1 departure, the last at 8:00:00", out)
        (self.feed / "calendar.txt").unlink()
        self.change("calendar_dates.txt", "FULLW,20070604,2", "FULLW,20070603,1")
        self.assertIn("1 departure, the last at 8:00:00", self.board("--stop", "BEATTY_AIRPORT")[0])

    def test_stations(self):
        text = (self.feed / "stops.txt").read_text().replace("stop_url", "parent_station")
        text = text.replace("-116.76821,,", "-116.76821,,CENTRAL").replace("-116.761472,,", "-116.761472,,CENTRAL") + "CENTRAL,Central,,0,0,,\n"
        (self.feed / "stops.txt").write_text(text)
        self.assertIn("208 departures", self.board("--stop", "CENTRAL")[0])

    def test_more_windows_than_the_board_takes_at_once(self):
        lines = "".join(f"STBA,{k // 4:02}:{15 * (k % 4):02}:00,{k // 4:02}:{15 * (k % 4) + 14:02}:59,600\n" for k in range(96))
        (self.feed / "frequencies.txt").write_text("trip_id,start_time,end_time,headway_secs\n" + lines)
        self.assertIn("192 departures", self.board("--stop", "STAGECOACH", "--route", "STBA")[0])
        # the 64th window, at the end of the first part, runs into the 65th
        lines = lines.replace("STBA,15:45:00,15:59:59", "STBA,15:45:00,16:05:00")
        (self.feed / "frequencies.txt").write_text("trip_id,start_time,end_time,headway_secs\n" + lines)
        self.assertIn("trip STBA: overlaps another window", self.board("--stop", "STAGECOACH", "--route", "STBA", status=1)[1])

    def test_refused(self):
        self.change("frequencies.txt", "CITY2,6:00:00,7:59:59,1800", "CITY2,6:00:00,8:30:00,1800")
        self.assertIn("frequencies.txt:4: trip CITY2: overlaps another window of its trip", self.board("--stop", "NADAV", status=1)[1])
        self.change("frequencies.txt", "STBA,6:00:00,22:00:00,1800", "STBA,6:00:00,22:00:00,20")
        self.assertIn("frequencies.txt:2: trip STBA: there are more than 2,000 departures", self.board("--stop", "STAGECOACH", "--route", "STBA", status=1)[1])
        self.assertIn("stops.txt: there is no stop NOWHERE", self.board("--stop", "NOWHERE", status=1)[1])


class Faults(FeedRoom):
    """What a feed lacks or has wrong: file, line and sentence."""

    def fault(self, file, old, new, said, *words):
        shutil.rmtree(self.feed)
        shutil.copytree(FEED, self.feed)
        with self.subTest(file=file, new=new):
            if old is None:
                (self.feed / file).unlink() if new is None else (self.feed / file).write_bytes(new)
            else:
                self.change(file, old, new)
            out, err = self.typed(*words[:1], self.feed, *words[1:], status=1)
            self.assertEqual(out, "")
            self.assertIn(said, err)

    def test_frequencies(self):
        for old, new, said in (
                (None, None, "frequencies.txt: the feed"), (None, b"", "frequencies.txt:1: the file is empty"),
                ("trip_id,", "trip,", "frequencies.txt:1: there is no field trip_id"),
                ("headway_secs", "trip_id", "frequencies.txt:1: the field trip_id is there twice"),
                ("STBA,6:00:00,22:00:00,1800", "STBA,6:00:00,22:00:00", "frequencies.txt:2: the line has 3 fields, and the first line names 4"),
                ("STBA,6:00:00,22:00:00,1800", "", "frequencies.txt:2: the line is empty"),
                ("STBA,6:00:00", "STBA,6:60:00", "frequencies.txt:2: start_time '6:60:00' is no time"),
                ("STBA,6:00:00", "STBA, 6:00:00", "frequencies.txt:2: start_time ' 6:00:00' is no time"),
                ("STBA,6:00:00", "STBA,9999999999:00:00", "start_time '9999999999:00:00' is no time"),
                ("STBA,6:00:00", "STBA,596524:00:00", "start_time '596524:00:00' is no time"),
                ("22:00:00,1800", "22:00,1800", "frequencies.txt:2: end_time '22:00' is no time"),
                ("22:00:00,1800", "22:00:00,0", "frequencies.txt:2: headway_secs '0' is no positive whole number"),
                ("22:00:00,1800", "22:00:00,-5", "headway_secs '-5'"), ("22:00:00,1800", "22:00:00,1e3", "headway_secs '1e3'"),
                ("22:00:00,1800", "22:00:00,99999999999", "headway_secs '99999999999'"),
                ("STBA,6", ",6", "frequencies.txt:2: the line names no trip"),
                ("STBA,6", "NOSUCH,6", "frequencies.txt:2: there is no trip NOSUCH in trips.txt"),
                ("STBA,6", '"STBA"x,6', "frequencies.txt:2: the fields cannot be told apart"),
                ("STBA,6", '"STBA,6', "frequencies.txt:2: the fields cannot be told apart"),
                (None, b"trip_id,start_time,end_time,headway_secs\nSTBA,6:00:00,22:00:00,\xff\n", "frequencies.txt:2: this is no text in UTF-8"),
                (None, b"trip_id,start_time,end_time,headway_secs,exact_times\nSTBA,6:00:00,22:00:00,600,2\n", "exact_times '2' is neither")):
            self.fault("frequencies.txt", old, new, said, "import")

    def test_what_csv_takes_otherwise(self):
        """The reader is the library's: what Python's csv would read has its line and a sentence too."""
        for new, said in (('ST"BA,6', "frequencies.txt:2: line 2 has a quote that is not closed, or one where none may stand"),
                          ("STBA,6:00:00,22:00:00,1800\rSTBA,6", "frequencies.txt:2: line 2 has another number of fields than the first")):
            self.fault("frequencies.txt", "STBA,6", new, said, "import")

    def test_csv_reads_the_same(self):
        """Where there is no library, csv reads the same windows."""
        from lukhandro import feed
        head = b"exact_times,trip_id,start_time,end_time,headway_secs\r\n"
        for data in ((FEED / "frequencies.txt").read_bytes(), b"\xef\xbb\xbf" + head + b'1,"a ""b"", c",0:00:00,25:10:00,1\r\n,Z\xc3\xbcrich,6:00:00,596523:14:07,2147483647', head):
            self.assertEqual(feed.frequencies(data), feed._by_csv(data))

    def test_other_tables(self):
        for file, old, new, said in (
                ("trips.txt", None, None, "trips.txt: the feed"), ("trips.txt", "trip_id", "trip", "trips.txt:1: there is no field trip_id"),
                ("trips.txt", "STBA,FULLW,STBA", "STBA,FULLW,CITY1", "trips.txt:5: the trip CITY1 is there already, in line 4"),
                ("trips.txt", "STBA,FULLW,STBA", "NOSUCH,FULLW,STBA", "trips.txt:4: there is no route NOSUCH in routes.txt"),
                ("routes.txt", None, None, "routes.txt: the feed"),
                ("calendar.txt", "FULLW,1", "FULLW,x", "calendar.txt:2: monday is 'x', and should be 0 or 1"),
                ("calendar.txt", "20070101", "20071301", "calendar.txt:2: '20071301' is no date"),
                ("calendar_dates.txt", "FULLW,20070604,2", "FULLW,20070604,3", "calendar_dates.txt:2: exception_type is '3'"),
                ("calendar_dates.txt", "20070604", "2007-6-4", "calendar_dates.txt:2: '2007-6-4' is no date")):
            self.fault(file, old, new, said, "import", "--date", "20070603")

    def test_no_calendar(self):
        (self.feed / "calendar.txt").unlink()
        (self.feed / "calendar_dates.txt").unlink()
        self.assertIn("neither calendar.txt nor calendar_dates.txt", self.typed("import", self.feed, "--date", "20070603", status=1)[1])
        self.typed("import", self.feed)

    def test_stop_times(self):
        board = ("board", "--stop", "STAGECOACH", "--date", "20070603")
        for old, new, said in (
                (None, None, "stop_times.txt: the feed"), ("stop_sequence", "sequence", "stop_times.txt:1: there is no field stop_sequence"),
                ("STBA,6:00:00,6:00:00,STAGECOACH,1", "STBA,6:00:00,6:00,STAGECOACH,1", "stop_times.txt:2: '6:00' is no time"),
                ("STBA,6:00:00,6:00:00,STAGECOACH,1", "STBA,,,STAGECOACH,1", "stop_times.txt:2: the trip STBA has no time here"),
                ("BEATTY_AIRPORT,2", "STAGECOACH,2,,,,\nSTBA,6:00:00,6:00:00,BEATTY_AIRPORT,2", "stop_times.txt:4: the trip STBA has the stop_sequence 2 twice"),
                ("STBA,6:00:00,6:00:00,STAGECOACH,1", "STBA,7:00:00,7:00:00,NADAV,0,,,,\nSTBA,6:00:00,6:00:00,STAGECOACH,1", "stop_times.txt:3: the trip STBA is here before"),
                ("STBA,6:00:00,6:00:00,STAGECOACH,1", "STBA,0:00:00,0:00:00,NADAV,0,,,,\nSTBA,6:00:00,596523:00:00,STAGECOACH,1", "STBA leaves the value range"),
                ("STBA,6:00:00,6:00:00,STAGECOACH,1", "STBA,6:00:00,6:00:00,STAGECOACH,x", "stop_times.txt:2: stop_sequence 'x' is no whole number")):
            self.fault("stop_times.txt", old, new, said, *board)

    def test_all_at_once(self):
        text = (self.feed / "frequencies.txt").read_text().replace(",600", ",x")
        (self.feed / "frequencies.txt").write_text(text)
        with open(self.feed / "frequencies.txt", "a") as file:
            file.write("CITY1,1,2\n")
        err = self.typed("import", self.feed, status=1)[1]
        self.assertEqual((err.count("headway_secs 'x'"), err.count("frequencies.txt:13: the line has 3 fields")), (4, 1))

    def test_no_feed(self):
        self.assertIn("cannot read", self.typed("import", self.room / "nosuch", status=2)[1])
        self.assertIn("neither a folder nor a .zip", self.typed("import", EXAMPLES / "sunday.lkt", status=2)[1])
        place = self.zipped()
        data = place.read_bytes()
        at = data.index(b"frequencies.txt") + 40
        place.write_bytes(data[:at] + bytes(b ^ 255 for b in data[at:at + 20]) + data[at + 20:])
        self.assertIn("frequencies.txt: it cannot be taken out of", self.typed("import", place, status=1)[1])


if __name__ == "__main__":
    unittest.main()
