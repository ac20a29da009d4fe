"""How a unit on wires is called wrongly: the words, and what it says. omci1, uni1 and gem1 are interfaces, of which gem1 is down."""
from help_texts import LIVE

USAGE = "\nUsage: python -m onuctl.live [OPTIONS] --omci <IFACE> --uni <PORT=IFACE>"
# Words that are wrong, and why; the usage stands behind it.
WRONG = (
    ("--omci omci1 --onu 1", "unexpected word '--onu'"),
    ("omci1", "unexpected word 'omci1'"),
    ("--gem-vlan=yes", "unexpected word '--gem-vlan=yes'"),
    ("--uni 257=uni1 --omci", "--omci has no value"),
    ("--uni 257=uni1 --omci=", "--omci has no value"),
    ("--uni 257=uni1 --gem 1024=gem1", "--omci is missing"),
    ("--omci omci1 --gem 1024=gem1", "--uni is missing"),
    ("--omci omci1 --uni 257=uni1", "nothing says by which interface frames leave: --gem or --pon"),
    ("--omci omci1 --omci omci1 --uni 257=uni1 --pon gem1", "--omci is given twice"),
    ("--omci omci1 --uni 257=uni1 --uni 0x101=gem1 --pon gem1", "port 257 is named twice"),
    ("--omci omci1 --uni 257=uni1 --gem 1=gem1 --gem 1=gem1", "GEM port 1 is named twice"),
    ("--omci uni1 --uni 257=uni1 --pon gem1", "uni1 is named twice; each of --omci and --uni has an interface of its own"),
    ("--omci omci1 --uni 257=uni1 --gem 1=gem1 --gem-vlan", "--gem-vlan is for what leaves by --pon, which is missing"),
    *((f"{option} {value}", f"{option} wants a number from 0 to 65535, = and an interface, not '{value}'")
      for option, value in (("--uni", "uni1"), ("--uni", "257="), ("--uni", "65536=uni1"), ("--gem", "-1=gem1"), ("--gem", "0x1_0=gem1"), ("--gem", "=gem1"))),
    *((f"--omci omci1 --uni 1=uni1 --pon gem1 --stats {seconds}", f"--stats wants seconds, 0.01 to 1000000, not '{seconds}'")
      for seconds in ("0", "-1", "soon", "nan")),
)
LONG = "o" * 300
# Interfaces that can't be used, and why.
UNUSABLE = (
    ("--omci omci9 --uni 257=uni1 --pon gem1", "there is no interface 'omci9'"),
    (f"--omci {LONG} --uni 257=uni1 --pon uni1", f"there is no interface '{LONG}'"),
    ("--omci omci1 --uni 257=lo --pon uni1", "lo is no Ethernet interface"),
    ("--omci omci1 --uni 257=uni1 --pon gem1", "gem1 is down: ip link set gem1 up"),
)
USABLE = "--omci omci1 --uni 257=uni1 --pon uni1"
NO_RIGHT = "packet sockets aren't allowed: run it as root, with the capability CAP_NET_RAW, or in a network namespace of your own (unshare -Urn)"


def expect_all(cases, without_right):
    """Adds what a unit on wires says of each. `without_right` gives what it says where it has no right to packet sockets."""
    def expect(words, status, output="", errors=""):
        cases.expect(f"live, {words or 'no word'}", ["-B", "-m", "onuctl.live", *words.split()], status, output, errors)

    expect("--help", 0, LIVE)
    expect("-h", 0, LIVE)
    expect("", 1, errors=LIVE)
    for words, why in WRONG:
        expect(words, 1, errors=f"onuctl.live: {why}{USAGE}")
    for words, why in UNUSABLE:
        expect(words, 1, errors=f"onuctl.live: {why}")
    cases.expect_of("live without a right", lambda *_: without_right(USABLE.split()), 1, errors=f"onuctl.live: {NO_RIGHT}")
