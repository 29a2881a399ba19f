"""Where a server's logs are: by their index, the folder that has one, or a pattern."""
from binlogfeed import FileFault, LogsGone, listed
from test_follow import ServerTest, log


class Listing(ServerTest):
    """Where logs are."""

    def names(self, place):
        """The names of the logs at a place."""
        return [path.name for path in listed(place)]

    def test_index(self):
        (self.data / "binlog.index").write_text(f"./binlog.000009\n{self.data}/binlog.000010\nbinlog.0000")
        self.assertEqual(listed(self.data), [self.data / "binlog.000009", self.data / "binlog.000010"])
        self.assertEqual(listed(self.data / "binlog.index"), listed(self.data))

    def test_pattern(self):
        for name in ("binlog.000002", "binlog.999999", "binlog.1000000", "binlog.index", "binlog.000003.gz", "binlog.~rec~"):
            self.log(name, b"")
        self.assertEqual(self.names(f"{self.data}/binlog.*"), ["binlog.000002", "binlog.999999", "binlog.1000000"])

    def test_pattern_of_two_servers(self):
        self.log("binlog.000001", log(1))
        self.log("relay.000002", log(2))
        with self.assertRaises(LogsGone):
            self.followed(place=f"{self.data}/*.00000?")

    def test_refused(self):
        self.log("binlog.000001", log(1))
        for place in (self.data, self.data / "none", self.data / "binlog.000001"):
            with self.assertRaises(FileFault):
                listed(place)
        self.index("binlog.000001")
        (self.data / "relay.index").write_text("")
        with self.assertRaises(FileFault):
            listed(self.data)
