"""The texts of all helps of the program, of `python -m onuctl.live`, `onuctl.fleet` and `onuctl.report`, and of `install` and `release`, word by word."""

PROGRAM = """\
Answer OMCI messages and forward Ethernet frames, as an optical network unit does

Usage: onuctl <COMMAND>

Commands:
  replay   Answer a script, line by line, on standard output
  run      Forward the frames of a capture on several lanes while a trace is applied
  decode   Say what each line of a script or of its answers means
  mib      Show the managed entities after a trace
  rules    Show the VLAN tagging table in force at a port after a trace
  explain  Say step by step what becomes of one frame after a trace
  judge    Say whether a right unit may have done what a history says
  forward  Forward the frames of a capture after a trace, and say what becomes of each
  record   Write the history that captures of one clock show, for judge
  encode   Make a script of a text in words
  lint     Say what is suspect in a trace and in the entities after it
  graph    Draw how the managed entities after a trace point to each other, for Graphviz
  cover    List which frames a test must send after a trace: one for each entry that is used, with each way to end
  diff     Say which frames two configurations treat differently, with a frame of each kind
  hitless  Say which frames a change treats on its way as neither its beginning nor its end does
  expect   Say of each expectation whether all frames after a trace do as it says, or show one that doesn't
  migrate  Look for messages that change one configuration into another without a hit
  help     Print this message or the help of the given subcommand(s)

Options:
  -h, --help     Print help
  -V, --version  Print version

Numbers in words: onuctl help reasons, onuctl help results, onuctl help faults, onuctl help statuses
Kinds of findings: onuctl help findings"""

# Of each command.
COMMANDS = {
    "replay": """\
Answer a script, line by line, on standard output

Usage: onuctl replay [OPTIONS] [FILE]

Arguments:
  [FILE]  Script, or words for one, a file; standard input without it [example: up.script]

Options:
      --json  Show it as JSON, for other programs; has no value [example: --json]
  -h, --help  Print help

Status: 0, 1 or 2; onuctl help statuses says when
Example: onuctl replay examples/replay/one_frame.script""",
    "run": """\
Forward the frames of a capture on several lanes while a trace is applied

Usage: onuctl run [OPTIONS] --frames <FILE> --port <PORT> <TRACE>

Arguments:
  <TRACE>  Script, or words for one, whose messages are applied, a file; also behind --trace [example: up.script]

Options:
      --frames <FILE>   Capture of the frames, a file in libpcap's classic format or in pcapng [example: up.pcap]
      --port <PORT>     Port at which frames come in, 0 to 65535 [example: 257]
      --lanes <COUNT>   Lanes that forward side by side, 1 to 16; 4 without it [example: 8]
      --batch <FRAMES>  Frames of each batch but the last, 1 to 65536; 1024 without it [example: 4096]
      --after           Forward only after the whole trace is applied; has no value [example: --after]
      --until <LINE>    Stop behind this line of the trace, from 1 [example: 20]
      --json            Show it as JSON, for other programs; has no value [example: --json]
  -h, --help            Print help

Status: 0, 1 or 2; onuctl help statuses says when
Example: onuctl run up.script --frames up.pcap --port 257""",
    "decode": """\
Say what each line of a script or of its answers means

Usage: onuctl decode [OPTIONS] [FILE]...

Arguments:
  [FILE]...  Scripts, or words for them, a file each; standard input without one [example: up.script]

Options:
      --source  Write the lines of a script in the words that encode reads; has no value [example: --source]
      --json    Show it as JSON, for other programs; has no value [example: --json]
  -h, --help    Print help

The lines of several files have the file's name in front; --source writes it as a remark.
Status: 0, 1 or 2; onuctl help statuses says when
Example: onuctl decode examples/replay/one_frame.script""",
    "mib": """\
Show the managed entities after a trace

Usage: onuctl mib [OPTIONS] <TRACE>...

Arguments:
  <TRACE>...  Scripts, or words for them, whose messages are applied, a file each; also behind --trace [example: up.script]

Options:
      --until <LINE>  Stop behind this line of the trace, from 1 [example: 20]
      --strict        Stop where a message of the trace has a fault or is refused; has no value [example: --strict]
      --json          Show it as JSON, for other programs; has no value [example: --json]
  -h, --help          Print help

The lines of several traces have the file's name in front.
Status: 0, 1 or 2; onuctl help statuses says when
Example: onuctl mib up.script""",
    "rules": """\
Show the VLAN tagging table in force at a port after a trace

Usage: onuctl rules [OPTIONS] --port <PORT> <TRACE>...

Arguments:
  <TRACE>...  Scripts, or words for them, whose messages are applied, a file each; also behind --trace [example: up.script]

Options:
      --until <LINE>  Stop behind this line of the trace, from 1 [example: 20]
      --strict        Stop where a message of the trace has a fault or is refused; has no value [example: --strict]
      --json          Show it as JSON, for other programs; has no value [example: --json]
      --port <PORT>   Port at which frames come in, 0 to 65535 [example: 257]
  -h, --help          Print help

The lines of several traces have the file's name in front.
Status: 0, 1 or 2; onuctl help statuses says when
Example: onuctl rules up.script --port 257""",
    "explain": """\
Say step by step what becomes of one frame after a trace

Usage: onuctl explain [OPTIONS] --port <PORT> <TRACE> [HEX]

Arguments:
  <TRACE>  Script, or words for one, whose messages are applied, a file; also behind --trace [example: up.script]
  [HEX]    Bytes of the frame, from the destination address on, in hexadecimal digits

Options:
      --until <LINE>    Stop behind this line of the trace, from 1 [example: 20]
      --strict          Stop where a message of the trace has a fault or is refused; has no value [example: --strict]
      --json            Show it as JSON, for other programs; has no value [example: --json]
      --port <PORT>     Port at which frames come in, 0 to 65535 [example: 257]
      --all             Show each entry that fails, not only how many; has no value [example: --all]
      --frames <FILE>   Capture with the frame, a file in libpcap's classic format or in pcapng [example: up.pcap]
      --frame <NUMBER>  Number of the frame in the capture, from 1 [example: 7]
  -h, --help            Print help

The frame is given by its bytes, or by a capture and its number there.
Status: 0, 1 or 2; onuctl help statuses says when
Example: onuctl explain up.script --port 257 0200000000010200000000028100a0640800
Example: onuctl explain up.script --port 257 --frames up.pcap --frame 7""",
    "lint": """\
Say what is suspect in a trace and in the entities after it

Usage: onuctl lint [OPTIONS] <TRACE>...

Arguments:
  <TRACE>...  Scripts, or words for them, whose messages are applied, a file each; also behind --trace [example: up.script]

Options:
      --until <LINE>        Stop behind this line of the trace, from 1 [example: 20]
      --strict              Stop where a message of the trace has a fault or is refused; has no value [example: --strict]
      --json                Show it as JSON, for other programs; has no value [example: --json]
      --ignore <KIND>       Leave findings of this kind out; may be given several times [example: not-reached]
      --fail-on <SEVERITY>  Severity from which on findings give status 3: error, warning or note; error without it [example: warning]
  -h, --help                Print help

The lines of several traces have the file's name in front.
Kinds and their severities: onuctl help findings
Status: 3 where a finding is of the severity of --fail-on, or worse
Example: onuctl lint up.script
Example: onuctl lint up.script up.onu --ignore not-reached --fail-on warning""",
    "graph": """\
Draw how the managed entities after a trace point to each other, for Graphviz

Usage: onuctl graph [OPTIONS] <TRACE>

Arguments:
  <TRACE>  Script, or words for one, whose messages are applied, a file; also behind --trace [example: up.script]

Options:
      --until <LINE>  Stop behind this line of the trace, from 1 [example: 20]
      --strict        Stop where a message of the trace has a fault or is refused; has no value [example: --strict]
      --port <PORT>   Port whose entities are shown, 0 to 65535; all without it [example: 257]
  -h, --help          Print help

Status: 0, 1 or 2; onuctl help statuses says when
Example: onuctl graph up.script | dot -Tsvg""",
    "judge": """\
Say whether a right unit may have done what a history says

Usage: onuctl judge [OPTIONS] [FILE]

Arguments:
  [FILE]  History, a file; standard input without it [example: bench.history]

Options:
      --modelled          Compare contents of replies only for a MIB reset and on classes 130, 171, 266 and 268, without read-only values and what the table holds; has no value [example: --modelled]
      --unordered         Judge each frame by itself, for ports that several lanes serve; has no value [example: --unordered]
      --allow-strays      Take strays, frames that leave and that no open frame can be; one that the unit makes up or sends twice isn't found then; has no value [example: --allow-strays]
      --padded            Take zeros behind a frame that leaves with fewer than 68 bytes, up to 68, as a wire pads it; zeros that the unit adds aren't found then; has no value [example: --padded]
      --allow-unfinished  Take a history without an end line, e; one that was cut isn't found then; has no value [example: --allow-unfinished]
      --repeats           Take a message with the bytes of the one before it as not carried out, and answered from memory or not at all; a unit that passes over it, or carries it out where no reply shows that, isn't found then; has no value [example: --repeats]
      --start <FILE>      Script, or words for one, whose messages the unit had carried out before the first line, a file; its frames are passed over [example: up.script]
      --all               List every deviation; behind each the judge goes on as if the unit had been right there; has no value [example: --all]
      --most <N>          How many deviations --all lists at most, from 1; 100 without it [example: 20]
      --coverage          Behind an explained history list which classes of frames were tried and which not, with a frame to send for each; has no value [example: --coverage]
      --least <BYTES>     List with --coverage what frames of at least so many bytes can have, 0 to 9989; of any length without it [example: 60]
      --json              Show it as JSON, for other programs; has no value [example: --json]
  -h, --help              Print help

Status: 0 if it may, 3 if not, 4 if it may so far, 1 or 2; onuctl help statuses says when
Example: onuctl judge bench.history""",
    "forward": """\
Forward the frames of a capture after a trace, and say what becomes of each

Usage: onuctl forward [OPTIONS] --frames <FILE> --port <PORT> <TRACE>

Arguments:
  <TRACE>  Script, or words for one, whose messages are applied, a file; also behind --trace [example: up.script]

Options:
      --frames <FILE>    Capture of the frames, a file in libpcap's classic format or in pcapng [example: up.pcap]
      --port <PORT>      Port at which frames come in, 0 to 65535 [example: 257]
      --out <FILE>       Write the frames that leave to this file, as pcapng; - is standard output [example: left.pcapng]
      --dropped <FILE>   Write the frames that are dropped to this file, as pcapng; - is standard output [example: dropped.pcapng]
      --verdicts <FILE>  Write a line for each frame to this file: its GEM port and tags, or why it is dropped; - is standard output [example: up.verdicts]
      --until <LINE>     Stop behind this line of the trace, from 1 [example: 20]
      --strict           Stop where a message of the trace has a fault or is refused; has no value [example: --strict]
      --json             Show it as JSON, for other programs; has no value [example: --json]
  -h, --help             Print help

Status: 0, 1 or 2; onuctl help statuses says when
Example: onuctl forward up.script --frames up.pcap --port 257 --out left.pcapng""",
    "record": """\
Write the history that captures of one clock show, for judge

Usage: onuctl record [OPTIONS]

Options:
      --omci <FILE>        Capture of OMCI frames, in one direction or both [example: omci.pcap]
      --into <PORT=FILE>   Capture of the frames sent into a port [example: 257=up.pcap]
      --out-of <GEM=FILE>  Capture of the frames that left by a GEM port, or by any=FILE where it doesn't show which; FILE alone is a pcapng file with an interface named 'gem G' for each GEM port G, as forward --out writes it [example: 1024=gem.pcap]
      --tpid <TPID>        Type of tags beside 8100 and 88a8, in hexadecimal digits [example: 9100]
      --wait <MS>          A reply is in force for frames this long after it, in milliseconds; without it that isn't judged [example: 100]
      --lost <MS>          A frame that isn't seen to leave in this time is lost, in milliseconds; a time under the unit's longest delay makes of one late frame an l and an s; without it that isn't judged [example: 1000]
      --late               Frames were on their way as the captures of --into began; what left until --lost after the first record of each is passed over; wants --lost; has no value [example: --late]
      --early              Frames were sent behind the ends of the captures of --into; what left from the last record of each on is passed over; has no value [example: --early]
      --skew <FILE=MS>     Add milliseconds to the times of a capture, a decimal number of either sign, where its clock is another [example: gem.pcap=-0.25]
      --fcs                Take the check sequence off each frame but those of --omci; has no value [example: --fcs]
      --padded             Compare frames without the zeros that end them, as a wire pads them; has no value [example: --padded]
      --sources            Say above each line in which record of which file it was seen; has no value [example: --sources]
      --out <FILE>         Write the history to this file, with the remarks of --sources; it gets its name once it is whole; - is standard output [example: bench.history]
      --strict             Write nothing where a frame left in doubt, is a stray, left before it was sent, is still open, or may lack its tags; has no value [example: --strict]
  -h, --help               Print help

Captures are files in libpcap's classic format or in pcapng. Each of --omci, --into, --out-of, --tpid and --skew may be given several times.
Status: 0, 1 or 2; onuctl help statuses says when
Example: onuctl record --omci omci.pcap --into 257=up.pcap --out-of 1024=gem.pcap --wait 5 --lost 10 | onuctl judge""",
    "cover": """\
List which frames a test must send after a trace: one for each entry that is used, with each way to end

Usage: onuctl cover [OPTIONS] <TRACE>

Arguments:
  <TRACE>  Script, or words for one, whose messages are applied, a file; also behind --trace [example: up.script]

Options:
      --until <LINE>   Stop behind this line of the trace, from 1 [example: 20]
      --strict         Stop where a message of the trace has a fault or is refused; has no value [example: --strict]
      --port <PORT>    Port whose frames are listed, 0 to 65535; without it each port that a mapper or a table points to [example: 257]
      --least <BYTES>  List what frames of at least so many bytes can have, 0 to 9989; of any length without it [example: 60]
      --script         Write a script, which replay answers behind the trace; has no value [example: --script]
      --out <FILE>     Write the frames of one port to this file too, as pcapng, in the same order; it gets its name once it is whole; - is standard output [example: sent.pcapng]
      --json           Show it as JSON, for other programs; has no value [example: --json]
  -h, --help           Print help

Whatever frame comes in has a class of the list: what the port's table uses for it, and how it ends.
Status: 0, 1 or 2; onuctl help statuses says when
Example: onuctl cover up.script --least 60 --out sent.pcapng""",
    "diff": """\
Say which frames two configurations treat differently, with a frame of each kind

Usage: onuctl diff [OPTIONS] <TRACE>

Arguments:
  <TRACE>  Script, or words for one, whose messages are applied, a file; also behind --trace [example: up.script]

Options:
      --until <LINE>   Stop behind this line of the trace, from 1 [example: 20]
      --strict         Stop where a message of the trace has a fault or is refused; has no value [example: --strict]
      --from <LINE>    Before: behind this line of the trace, 0 for the opening state; at its end without it [example: 40]
      --to <FILE>      After: what this trace leads to, a file; without it the same trace, which then wants --from [example: new.script]
      --port <PORT>    Port whose frames are compared, 0 to 65535; without it each port that a mapper or a table of either points to [example: 257]
      --least <BYTES>  Compare frames of at least so many bytes, 0 to 9989; of any length without it [example: 60]
      --json           Show it as JSON, for other programs; has no value [example: --json]
  -h, --help           Print help

Where none is shown, every frame leaves with the same bytes by the same GEM port, or is dropped for the same reason.
The line of --until, and its end, is that of the configuration after.
Status: 3 where they differ; onuctl help statuses has the others
Example: onuctl diff up.script --from 4
Example: onuctl diff up.script --to new.script""",
    "hitless": """\
Say which frames a change treats on its way as neither its beginning nor its end does

Usage: onuctl hitless [OPTIONS] --from <LINE> <TRACE>

Arguments:
  <TRACE>  Script, or words for one, whose messages are applied, a file; also behind --trace [example: up.script]

Options:
      --until <LINE>   Stop behind this line of the trace, from 1 [example: 20]
      --strict         Stop where a message of the trace has a fault or is refused; has no value [example: --strict]
      --from <LINE>    The change begins behind this line of the trace, 0 for the opening state [example: 5]
      --port <PORT>    Port whose frames are looked at, 0 to 65535; without it each port that a mapper or a table points to on the way [example: 257]
      --least <BYTES>  Look at frames of at least so many bytes, 0 to 9989; of any length without it [example: 60]
      --json           Show it as JSON, for other programs; has no value [example: --json]
  -h, --help           Print help

A moment between is torn for a frame that leaves there with a GEM port or bytes of neither, or is dropped there and by neither.
Status: 3 where a moment is torn; onuctl help statuses has the others
Example: onuctl hitless up.script --from 5""",
    "migrate": """\
Look for messages that change one configuration into another without a hit

Usage: onuctl migrate [OPTIONS] <TRACE>

Arguments:
  <TRACE>  Script, or words for one, whose messages are applied, a file; also behind --trace [example: up.script]

Options:
      --until <LINE>  Stop behind this line of the trace, from 1 [example: 20]
      --strict        Stop where a message of the trace has a fault or is refused; has no value [example: --strict]
      --from <LINE>   Before: behind this line of the trace, 0 for the opening state; at its end without it [example: 40]
      --to <FILE>     After: what this trace leads to, a file; without it the same trace, which then wants --from [example: new.script]
      --leave         Be done where every frame is treated as after, whatever instances are left
      --id <NUMBER>   Transaction correlation identifier of the first message, 0 to 65535; without it the one behind the last of the trace [example: 100]
      --no-ties       Let no two mappers, and no two tables, name one port on the way
      --json          Show it as JSON, for other programs; has no value [example: --json]
  -h, --help          Print help

The messages are a script, each below a remark; hitless confirms them.
No frame, whenever it comes, is treated otherwise than by the configuration before or the one after.
Where none are found, the frames for which the best that was tried is torn are shown on standard error; there may be a way all the same.
The line of --until, and its end, is that of the configuration after.
Status: 3 where no way is found; onuctl help statuses has the others
Example: onuctl migrate up.script --from 4
Example: onuctl migrate up.script --to new.script > way.script""",
    "expect": """\
Say of each expectation whether all frames after a trace do as it says, or show one that doesn't

Usage: onuctl expect [OPTIONS] <TRACE> [FILE]

Arguments:
  <TRACE>  Script, or words for one, whose messages are applied, a file; also behind --trace [example: up.script]
  [FILE]   Expectations in words, a file; standard input without it [example: up.expected]

Options:
      --until <LINE>   Stop behind this line of the trace, from 1 [example: 20]
      --strict         Stop where a message of the trace has a fault or is refused; has no value [example: --strict]
      --from <LINE>    Check behind this line of the trace, 0 for the opening state, and by each version from there on; at the end alone without it [example: 5]
      --least <BYTES>  Check frames of at least so many bytes, 0 to 9989; of any length without it [example: 60]
      --json           Show it as JSON, for other programs; has no value [example: --json]
  -h, --help           Print help

An expectation is a line: PORT FILTER -> ENDING TREATMENT; `#` begins a remark. Numbers are decimal or begin with 0x.
FILTER: any, or tags=0|1|2, pcp=, vid=, tpid=, dei=, outer(..), inner(..), type=, dscp=
ENDING: any, leave, drop, drop REASON or gem GEM
TREATMENT: unchanged, or remove=N outer(pcp= vid= tpid= dei=) inner(..)
It holds where some frame passes the filter, and each that does ends and leaves so.
All mistakes in the words are reported, by line and column, and then nothing is checked.
Status: 3 where one doesn't hold; onuctl help statuses has the others
Example: onuctl expect up.script up.expected""",
    "encode": """\
Make a script of a text in words

Usage: onuctl encode [OPTIONS] [FILE]

Arguments:
  [FILE]  Text in words, a file; standard input without it [example: up.onu]

Options:
      --id <NUMBER>  Transaction correlation identifier of the first message, 0 to 65535; 1 without it [example: 100]
  -h, --help         Print help

A line in words is a line of the script; `#` begins a remark. Numbers are decimal or begin with 0x.
  create CLASS INSTANCE ATTRIBUTE=VALUE ..      set CLASS INSTANCE ATTRIBUTE=VALUE ..
  delete CLASS INSTANCE                         get CLASS INSTANCE ATTRIBUTE ..
  get-next CLASS INSTANCE N                     upload | upload-next N | reset
  entry vlan INSTANCE FILTER -> TREATMENT       remove-entry vlan INSTANCE FILTER
  frame PORT dst=MAC src=MAC tag=TPID:PRIORITY:DEI:VID type=TYPE dscp=N length=N payload=HEX
  o HEX | f PORT HEX | raw HEX
Classes are gem-port, interwork, mapper, vlan, onu-data. A message takes id=N and quiet.
FILTER: tags=0|1|2, default, predefined, pcp=, vid=, tpid=, dei=, outer(..), inner(..), type=
TREATMENT: drop, or remove=N outer(pcp= vid= tpid= dei=) inner(..)
A text with mistakes, each said with line and column, makes no script.
Status: 0, 1 or 2; onuctl help statuses says when
Example: onuctl encode up.onu | onuctl replay""",
}

# Of what stands behind `help` beside the commands.
TOPICS = {
    "reasons": """\
Why a frame is dropped, with the step that finds it: `d N` of replay, `drop N` of run and forward
  1  frame: the frame ends within its addresses or type
  2  frame: the frame ends within a tag or before the type behind it
  3  entry: no rule of the port's table matches the frame
  4  treatment: a rule of the port's table discards the frame
  5  mapper: the port has no mapper
  6  pointer: the mapper's pointer for the priority is null
  7  interworking point: the mapper's pointer leads to no interworking termination point
  8  GEM port: the interworking termination point's pointer leads to no GEM port
  9  direction: the GEM port doesn't carry frames upstream""",
    "results": """\
The result of a reply, the first byte of its contents (ITU-T G.988, annex A)
  0  success
  1  command processing error
  2  command not supported
  3  parameter error
  4  unknown managed entity
  5  unknown managed entity instance
  6  device busy
  7  instance exists
  9  attributes failed or unknown""",
    "faults": """\
Why a message has no effect: `m N` of replay
  1  the message has neither 48 bytes nor 44
  2  the destination bit is 1, expected 0
  3  the acknowledgement bit is 1, expected 0 of a request
  4  the device identifier isn't 10
Why a capture isn't read: `capture fault K at N` of run, forward, record and explain
  1  no capture in libpcap's classic format or in pcapng, expected one of these
  2  the header is cut short, or of another version, expected a whole one
  3  link type N, expected Ethernet
  4  record or block N, from 0, is cut short or broken, expected a whole one
  5  record or block N, from 0, stores over 262144 bytes of a frame""",
    "findings": """\
What lint finds, the most severe first: `--ignore KIND` leaves findings of a kind out
  port-drops-all (error): all frames of a port are dropped
  null-pointer (error): a mapper's pointer of a priority is null, so its frames are dropped
  pointer-to-nothing (error): nothing has the number that an instance points to
  priority-not-carried (error): no GEM port carries the frames of a mapper's priority
  second-mapper (error): another mapper is in force at the port of this one
  second-table (error): another table is in force at the port of this one
  entry-never-used (error): an entry is tried behind one that admits everything that it admits
  port-id-used-twice (error): another GEM port has this one's port-ID
  message-fault (error): a message of the trace has a fault
  message-refused (error): a message of the trace is refused
  not-upstream (warning): a GEM port's direction carries no frames upstream
  not-reached (warning): the frames of no port come by an instance
  without-frames (warning): a mapper leads to a GEM port by priorities alone that no frame has
  entry-not-held (warning): a message removes an entry that the table doesn't hold
  entry-overwritten (warning): a message overwrites an entry that the trace set before
  copy-of-no-tag (warning): an entry for frames without tags copies from a received tag
  bridge-not-modelled (warning): a mapper hangs on a bridge, which this model doesn't have
  empty-trace (warning): the trace has no message
  predefined-never-used (note): the same of an entry that each new table has
  not-modelled (note): a class or an action that this model doesn't have; once for each""",
    "statuses": """\
The status with which the program ends
  0  all is written; judge explained the whole history, lint found nothing as severe as --fail-on, diff no difference, hitless no torn moment, expect nothing that doesn't hold, and migrate a way
  1  the words are wrong, a read or a write failed, or there is no memory or no room
  2  a line, a text or a capture is bad, or --strict met a message that wasn't carried out
  3  judge found a deviation, lint something as severe as --fail-on, diff a difference, hitless a torn moment, or expect what doesn't hold, and all is written; or migrate found no way
  4  judge found no deviation, but the history may be cut, or nothing of it was judged; all is written
  141  nobody reads standard output any more""",
}

# Of a unit on network interfaces.
LIVE = """\
Put a unit on network interfaces: it answers OMCI messages, and forwards the frames that arrive at its ports

Usage: python -m onuctl.live [OPTIONS] --omci <IFACE> --uni <PORT=IFACE>

Options:
      --omci <IFACE>      Interface of the OMCI messages, which are frames of Ethertype 0x88B5; the sender gets the reply [example: omci0]
      --uni <PORT=IFACE>  Interface at whose other end a port's frames come in; the port is 0 to 65535 [example: 257=uni0]
      --gem <GEM=IFACE>   Interface by which the frames of a GEM port leave; the GEM port is 0 to 65535 [example: 1024=gem0]
      --pon <IFACE>       Interface by which those of every other GEM port leave [example: pon0]
      --gem-vlan          Put the GEM port in front of what leaves by --pon, as the VID of an S-tag of its own, for captures and tests alone; has no value [example: --gem-vlan]
      --stats <SECONDS>   Write the totals to standard error every so many seconds, too [example: 10]
      --json              Write the totals as JSON, for other programs; has no value [example: --json]
  -h, --help              Print help

Each of --uni and --gem may be given several times. One of --gem and --pon has to be given.
Packet sockets are Linux's. They take root, CAP_NET_RAW or a network namespace of your own.
SIGTERM or SIGINT ends it, and it writes its totals to standard output.
Status: 0; 1 where the words are wrong, an interface can't be used or a write failed; 141 where nobody reads standard output
Example: python -m onuctl.live --omci omci0 --uni 257=uni0 --gem 1024=gem0
Example: python -m onuctl.live --omci omci0 --uni 257=uni0 --uni 258=uni1 --pon pon0 --gem-vlan"""

# Of many files at once.
FLEET = """\
Put a question to many files: judge histories, and look into, compare and check provisionings

Usage: python -m onuctl.fleet [OPTIONS] <QUESTION> <PATH>...

Arguments:
  <QUESTION>  judge: may a right unit have done what a history says; lint: what is wrong in a provisioning; diff: which frames it treats differently; expect: whether it does what is expected [example: judge]
  <PATH>...   File, folder, glob in quotes, tar archive, or - for a list of paths on standard input [example: night]

Options:
      --workers <COUNT>      Processes of this machine, 1 to 1024; one for each processor without it [example: 8]
      --cluster <ADDRESS>    Scheduler of a cluster of Dask, in place of processes [example: tcp://10.0.0.1:8786]
      --shared               Have the cluster's machines read the files, which all of them see; has no value [example: --shared]
      --only-found           Write no line for a file of which nothing is found; has no value [example: --only-found]
      --modelled             judge: don't compare contents of replies that the model lacks, nor read-only values; has no value [example: --modelled]
      --unordered            judge: judge each frame by itself; has no value [example: --unordered]
      --allow-strays         judge: let frames leave that nobody sent; has no value [example: --allow-strays]
      --padded               judge: let short frames be seen with zeros behind them; has no value [example: --padded]
      --allow-unfinished     judge: let a history have no end line; has no value [example: --allow-unfinished]
      --repeats              judge: let a message that is sent twice in a row be carried out once; has no value [example: --repeats]
      --start <SCRIPT>       judge: script, or words for one, that each unit had carried out before line 1 [example: up.script]
      --report <FOLDER>      judge: write a page of each history that deviates to this folder, and an index of all, by onuctl.report [example: pages]
      --most <COUNT>         judge: list so many deviations of a history; the first alone without it [example: 100]
      --ignore <KIND>        lint: leave the findings of a kind out; may be given several times [example: not-modelled]
      --fail-on <SEVERITY>   lint: a file with a finding as severe is found: error, warning or note; error without it [example: warning]
      --to <PATH>            diff: compare each file with this one, or with that of its name below this folder [example: new]
      --port <PORT>          diff: of frames that come in at this port, 0 to 65535 [example: 257]
      --expectations <FILE>  expect: expectations of all files; without it NAME.expect beside each [example: all.expect]
      --from <LINE>          diff, expect: begin behind this line of each file; 0 is the opening state [example: 40]
      --until <LINE>         diff, expect: stop behind this line [example: 60]
      --least <BYTES>        diff, expect: of frames of at least so many bytes [example: 60]
  -h, --help                 Print help

Standard output gets an object of JSON for each file, in the order of the paths, and a summary behind them.
Status: 0; 1 where the words are wrong or nothing more can be answered; 2 where files couldn't be read; else 3 where something was found, and 4 where histories weren't judged to their end; 130 behind an interrupt; 141 where nobody reads standard output
Example: python -m onuctl.fleet judge --padded night
Example: python -m onuctl.fleet diff --to new old"""

REPORT = """\
Write a page on what a unit did: the verdict on a history, what it rests on, and each deviation beside what is right

Usage: python -m onuctl.report [OPTIONS] --out <FILE> <HISTORY>

Arguments:
  <HISTORY>  History, a file; - is standard input [example: bench.history]

Options:
      --out <FILE>         The page, a file of HTML; - is standard output [example: report.html]
      --trace <FILE>       Script, or words for one, whose configuration is shown; without it what was sent to the unit [example: up.script]
      --start <SCRIPT>     Script, or words for one, that the unit had carried out before line 1 [example: up.script]
      --modelled           Don't compare contents of replies that the model lacks, nor read-only values; has no value [example: --modelled]
      --unordered          Judge each frame by itself; has no value [example: --unordered]
      --allow-strays       Let frames leave that nobody sent; has no value [example: --allow-strays]
      --padded             Let short frames be seen with zeros behind them; has no value [example: --padded]
      --allow-unfinished   Let a history have no end line; has no value [example: --allow-unfinished]
      --repeats            Let a message that is sent twice in a row be carried out once; has no value [example: --repeats]
      --most <COUNT>       How many deviations are looked for, from 1; 100 without it, and the page shows 100 at most [example: 1000]
      --least <BYTES>      Coverage is of frames of at least so many bytes, 0 to 9989; 0 without it [example: 60]
  -h, --help               Print help

The page stands alone: it needs no network and no script, has light and dark colours, and prints on A4.
It takes Jinja2, Debian's package python3-jinja2. Graphviz draws the graph of the configuration where it is installed.
Status: that of judge: 0 explained, 3 a deviation, 4 nothing deviates but it's no pass; 2 a text is bad, 1 else, and then there is no page
Example: python -m onuctl.report --out report.html bench.history
Example: python -m onuctl.report --start up.script --padded --out report.html bench.history"""

# Of scripts at the top.
INSTALL = """\
Installs the program, its manual pages and completions, the library for C with its header, the Python package and the documents. What isn't
proved and built yet is proved and built first.
usage: install PREFIX
       install --help
  PREFIX/bin/onuctl
  PREFIX/lib/libonu.a, libonu.so, pkgconfig/onu.pc, and PREFIX/lib/onuctl/python for PYTHONPATH
  PREFIX/include/onu.h
  PREFIX/share: man/man1, bash-completion, zsh, fish, and doc/onuctl, where PROVED says with what all was proved and has the sums of the files

PREFIX may be in use. Each file is written beside its place and renamed, so a program that runs keeps the file that it began with. No file is
renamed before all are written. Where one can't be written, what stands in PREFIX stays as it was."""
RELEASE = """\
Makes an archive of all that `install` installs, so that one machine proves and others only unpack: the program needs the GNU C library
alone. Beside it stands its checksum. Before, it checks what nothing else does: that each program of timings/ is built, of the crates as
they are, and that each file which names the version or the kit names those of this release.
usage: release [--check]
       release --help
  --check only checks that, and makes no archive."""
