"""design and capability: what they make of a vessel's description, what they refuse, and that the program accepts it."""
import os
import subprocess
import sys
import tomllib
import unittest

import certificates
import plantfiles
import vessels
from support import ToolTest, at_root, program, text_of

try:
    import cvxopt  # noqa: F401
    SOLVER = True
except ImportError:
    SOLVER = False

wants_solver = unittest.skipUnless(SOLVER, "design wants the library cvxopt: apt install python3-cvxopt")
PLANTS = ["S1", "S2", "S1_tight", "S2_tight", "S2_waves", "osv90", "catamaran"]


def plant(name):
    return tomllib.loads(text_of("plants", name + ".toml"))


def gains(of):
    return {key: value for key, value in of["gains"].items() if of["plant"]["version"] == 2 or key not in ("wave", "k1")}


class Certificates(ToolTest):
    def test_sample_plants_hold(self):
        for name in PLANTS:
            with self.subTest(name):
                one = plant(name)
                self.assertIsNone(certificates.first_fault(gains(one), one["cert"]))

    def test_plain_squares_are_those_of_the_program(self):
        """The lists of S2 but for `form` are made by the plain rule."""
        one = plant("S2")
        p = certificates.unpacked(one["cert"]["p"], 5)
        for axis, name in enumerate(certificates.AXES):
            for which, step in enumerate(certificates.vertices(one["gains"], axis)):
                self.assertEqual(one["cert"]["%s%d" % (name, which)], certificates.plain_squares(certificates.contraction(p, step, one["cert"]["rho"])))

    def test_each_condition_is_judged(self):
        rows = [("rho", 1 << 30, "rate"), ("form", [], "form"), ("sway2", [], "vertex 1 2"), ("b", 1, "input"), ("r", 27000, "round"),
                ("g", [160000, 100000], "output 1 0"), ("span", [100000000, 60000, 4700000], "span 1"), ("b", 1 << 50, "wide 0"), ("r", 1 << 41, "range cert.r")]
        one = plant("S1")
        for key, value, fault in rows:
            self.assertEqual(fault, certificates.first_fault(gains(one), {**one["cert"], key: value}), key)

    def test_bounds_are_those_of_the_program(self):
        one = plant("S1")
        self.assertEqual([(895, 22759835), (894, 22751555)], certificates.bounds(one["cert"], one["case"][0])[:2])

    def test_the_rest_of_a_file_stays(self):
        text = text_of("plants", "S1.toml")
        fresh = plantfiles.with_certificate(text, plant("S1_tight")["cert"])
        self.assertEqual(text.split("[cert]")[0], fresh.split("[cert]")[0])
        self.assertEqual([line for line in text.split("\n") if line.startswith("#")], [line for line in fresh.split("\n") if line.startswith("#")])
        self.assertEqual(plant("S1_tight")["cert"], tomllib.loads(fresh)["cert"])
        with self.assertRaises(ValueError):
            plantfiles.with_certificate("[plant]\n", plant("S1")["cert"])


class Descriptions(ToolTest):
    def refused(self, edit):
        said = tomllib.loads(text_of("vessels", "osv90.toml"))
        edit(said)
        with self.assertRaises(vessels.Refused) as caught:
            import allocation
            allocation.cases(vessels.described(said))
        return str(caught.exception)

    def test_refusals(self):
        def put(*path):
            def edit(said):
                at = said
                for key in path[:-2]:
                    at = at[key]
                at[path[-2]] = path[-1]
            return edit

        def no_tunnels(said):
            said["thruster"] = said["thruster"][:2]

        def one_group_carries_surge(said):
            said["thruster"][1]["group"] = 0
            said["thruster"][4]["group"] = 1

        rows = [(put("mass_t", -6000), "mass_t: -6000 is outside"), (put("mass_t", 6000000), "mass_t: 6000000 is outside 20 to 600000 t: is it a thousand times too large"),
                (put("mass_t", 400000), "mass_t: 400000 t at a length of 90 m is heavier than any hull"), (put("lenght", 90), "lenght: no such key"),
                (put("thruster", 0, "ahead_kN", 450000), "thruster 0.ahead_kN: 450000 is outside 0 to 2000 kN: is it a thousand times too large"),
                (put("thruster", 0, "ahead_kn", 450), "thruster 0.ahead_kn: no such key"), (put("thruster", 2, "x", 36000), "thruster 2.x: 36000 is outside"),
                (put("thruster", 2, "x", 80), "thruster 2.x: 80 m is outside the hull"), (put("thruster", 5, "group", 4), "thruster: the groups are"),
                (put("wind", "cx", "a"), "wind.cx: wanted is a number"), (put("antenna", []), "antenna: wanted are 3 tables"), (put("cycle_s", 30), "cycle_s: 30 is outside"),
                (put("time_constant_s", 4), "time_constant_s: 4 is outside"), (put("added", [1, 2]), "added: wanted are 3 numbers"),
                (no_tunnels, "thruster: together they give no sway"), (one_group_carries_surge, "thruster: without group 0 nothing gives surge")]
        for edit, wanted in rows:
            with self.subTest(wanted):
                self.assertIn(wanted, self.refused(edit))

    def test_a_missing_key_is_named(self):
        for key in ("length_m", "mass_t", "wind", "thruster", "antenna"):
            self.assertIn("%s: it is missing" % key, self.refused(lambda said, key=key: said.pop(key)))

    def test_words_and_files(self):
        self.tool("design", status=2)
        self.assertIn("nowhere.toml: No such file", self.tool("design", "nowhere.toml", status=1)[1])
        self.assertIn("is no TOML document", self.tool("design", self.file("x.toml", "a ="), status=1)[1])
        self.tool("capability", status=2)
        self.assertIn("is no plant file", self.tool("capability", self.file("y.toml", "a = 1"), status=1)[1])


class Designs(ToolTest):
    @wants_solver
    def test_a_vessel_becomes_a_plant(self):
        for name, most in (("osv90", 157), ("catamaran", 400)):
            with self.subTest(name):
                text, said = self.tool("design", "--page", "page.html", at_root("vessels", name + ".toml"))
                self.assertIn("natural period", said)
                self.assertIn("<polygon", self.content("page.html"))
                made = tomllib.loads(text)
                self.assertIsNone(certificates.first_fault(gains(made), made["cert"]))
                self.assertLessEqual(certificates.bounds(made["cert"], made["case"][0])[0][0], most)
                self.file("plant.toml", text)
                self.accepted("plant.toml")

    @wants_solver
    def test_better_certificates(self):
        for name, most in (("S1", 216), ("S2", 216), ("S2_waves", 296)):
            with self.subTest(name):
                text, _ = self.tool("design", "--certificate", at_root("plants", name + ".toml"))
                made = tomllib.loads(text)
                self.assertIsNone(certificates.first_fault(gains(made), made["cert"]))
                self.assertLessEqual(certificates.bounds(made["cert"], made["case"][0])[0][0], most)

    def accepted(self, name):
        if "DP_PROGRAM" in os.environ:
            done = subprocess.run(program() + ["check", name], cwd=self.folder, capture_output=True, check=False)
            self.assertEqual((0, b"accepted\n"), (done.returncode, done.stdout[:9]), done.stdout)

    def test_sample_plants_are_accepted(self):
        for name in PLANTS:
            with self.subTest(name):
                words = program() + ["check", at_root("plants", name + ".toml")]
                done = subprocess.run(words, capture_output=True, check=False)
                self.assertEqual((0, b"accepted\n"), (done.returncode, done.stdout[:9]))

    def test_the_sample_record_runs_on_each(self):
        for name in PLANTS:
            with self.subTest(name):
                words = program() + ["replay", at_root("plants", name + ".toml"), at_root("samples", "station.txt"), self.file("none.script", "")]
                done = subprocess.run(words, cwd=self.folder, capture_output=True, check=False)
                cycles = 11200 // plant(name)["plant"]["cycle_ms"] + 1      # its last line is of 11.2 s
                self.assertEqual((0, "end %d" % cycles), (done.returncode, done.stdout.decode().splitlines()[-1]))


class Capability(ToolTest):
    def test_page(self):
        page, _ = self.tool("capability", at_root("plants", "osv90.toml"))
        self.assertEqual(len(plant("osv90")["case"]), page.count("<polygon"))
        for words in ("intact", "group 2 lost", "60 to 90", "from starboard"):
            self.assertIn(words, page)

    def test_without_wind_every_wind_is_held(self):
        said = text_of("plants", "osv90.toml")
        before, rest = said.split("push = [")
        self.file("calm.toml", before + "push = [\n" + "  [0, 0, 0],\n" * 12 + "]" + rest.split("\n]", 1)[1])
        self.assertIn("over 60", self.tool("capability", "calm.toml")[0])


if __name__ == "__main__":
    sys.exit("run tools/test test_design")
