"""What an import reads of the site's configuration, and what of it is refused."""

from __future__ import annotations

from monitor_companion.refusals import Status

from tests.importing import SiteTest


class Configured(SiteTest):
    """An import goes by the names and files of the gauges."""

    def test_only_names_and_files_of_the_site_are_read(self) -> None:
        text = '[[gauge]]\nname = "span"\nfile = "span.sgrc"\nnum = 0.21\n[[detail]]\ngamma = 1\n'
        (self.site / "monitor.toml").write_text(text)
        self.write("export.csv", "time,span\n0,1\n1,3\n")
        self.assertEqual(self.call("import", "export.csv"), Status.DONE, self.err)
        self.assertEqual(self.samples("span"), [1, 3])

    def test_faults_of_the_site(self) -> None:
        self.write("export.csv", "time,span,pier\n0,1,2\n1,3,4\n")
        sound = (self.site / "monitor.toml").read_text()
        for old, new, told in (
            ("[grid]", "[grid", "monitor.toml:1: no TOML in column 6: "),
            (
                'name = "pier"',
                'name = "span"',
                'monitor.toml:11: gauge 1 "span": name = "span" is that of gauge 0 in line 7'
                " already; two gauges have two names",
            ),
            (
                'name = "pier"',
                'name = "pier 3"',
                'monitor.toml:11: gauge 1 "pier 3": name = "pier 3" has " "; allowed is 1 to 32',
            ),
            ('file = "span.sgrc"', "", 'monitor.toml:6: gauge 0 "span": file is missing'),
            (
                'file = "pier.sgrc"',
                'file = "./span.sgrc"',
                'monitor.toml:12: gauge 1 "pier": file = "./span.sgrc" is that of gauge 0 "span"'
                " already; an import needs a recording for each gauge",
            ),
        ):
            with self.subTest(new=new):
                self.assertIn(old, sound)
                (self.site / "monitor.toml").write_text(sound.replace(old, new, 1))
                self.assertEqual(self.call("import", "export.csv"), Status.REFUSED)
                self.assertIn(told, self.err)
                self.assertEqual(set(self.files()), {"monitor.toml", "export.csv"})
        (self.site / "monitor.toml").unlink()
        self.refused(
            "monitor.toml: isn't there: --site names the folder that has it", "import", "export.csv"
        )

    def test_a_gauge_that_the_site_has_not(self) -> None:
        self.write("export.csv", "time,span,pier\n0,1,2\n1,3,4\n")
        self.refused(
            "monitor.toml: has no gauge 'spam'; there are pier, span",
            "import",
            "export.csv",
            "--gauge",
            "spam",
        )
