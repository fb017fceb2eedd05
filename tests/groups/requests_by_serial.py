"""Requests that are named with their serial numbers: decided at the control socket, shown, logged, and replayed from a log."""

import json
import re

from groups.overdue import seconds_of
from lib.program import Control, parted
from lib.trial import each, test

DAY = "2026-01-01T00:00:00Z"
END = "2026-12-31T00:00:00Z"
ENTERED = f"{DAY} subscriber acme\n{DAY} subscriber beta\n" + "".join(
    f"{DAY} order {1 + number % 2} 398\n{DAY} register {number} 0{number} {DAY} {END}\n" for number in range(1, 5)
)
DUE = "2026-01-02T00:00:00Z"


def serial(number):
    return f"{number:040x}"


def opened(t, *words):
    t.register(lines=ENTERED)
    t.clock(DAY)
    return t.open("ca.db", *words)


def replies_to(t, *lines):
    """The replies to these lines on one control connection."""
    return t.desk("at", "control", given="".join(f"{it}\n" for it in lines)).out.decode().splitlines()


DECIDED = {"revoke": "revoked", "decline": "declined"}


@each({it: (it, reply) for it, reply in DECIDED.items()})
def a_request_is_decided_by_its_number_and_its_serial_number(t, word, reply):
    opened(t)
    t.same(replies_to(t, "request 01 superseded", f"{word} 1 01"), [f"request 1 due {DUE}", reply])
    t.same(replies_to(t, "request 02 superseded", f"{word} 2 {serial(2).upper()}"), [f"request 2 due {DUE}", reply])


@each({it: (it, reply) for it, reply in DECIDED.items()})
def one_that_is_for_another_serial_number_is_refused(t, word, reply):
    desk = opened(t)
    # Another client's request comes first, so the office's own request has another number than the office wrote down.
    t.same(parted(desk.ask("POST", "/requests", b'{"serial":"03","ground":"superseded"}'))[2], f'{{"due":"{DUE}","request":1}}'.encode())
    t.same(
        replies_to(t, "request 01 superseded", f"{word} 1 01", "why", "status 03", f"{word} 2 01"),
        [f"request 2 due {DUE}", "E17 no-request", f"why request 1 is for {serial(3)}", "good", reply],
    )


@test
def a_request_that_is_not_open_is_refused_as_by_its_number_alone(t):
    opened(t)
    replies_to(t, "request 01 superseded", "request 02 superseded", "request 02 superseded", "decline 1", "revoke 2")
    for number, its_serial in ((1, "01"), (2, "02"), (3, "02"), (4, "04"), (0, "04")):
        for word in DECIDED:
            with_serial, alone = replies_to(t, f"{word} {number} {its_serial}", f"{word} {number}")
            t.same(with_serial, alone, f"{word} {number}")
    t.same(replies_to(t, "revoke 1 01", "why", "revoke 3 02"), ["E18 declined-before", "why E18 declined-before", f"E19 revoked-before {DAY}"])


@test
def one_that_is_not_open_and_for_another_serial_number_is_none_either(t):
    opened(t)
    replies_to(t, "request 01 superseded", "request 02 superseded", "decline 1", "revoke 2")
    t.same(replies_to(t, "revoke 1 02", "why", "decline 2 01", "why"), ["E17 no-request", f"why request 1 is for {serial(1)}", "E17 no-request", f"why request 2 is for {serial(2)}"])


@each({it: it for it in ("revoke 1 ", "revoke 1 x", "revoke x 01", "revoke 1 01 02", "decline 1 00", "revoke 1  01", "REVOKE 1 01", "show", "show ", "show x", "show request", "show request x", "show subscriber", "show subscriber ", "show order 1", "show request 1 2", "help me")})
def what_is_no_such_word_is_a_line_that_can_not_be_read(t, line):
    opened(t)
    t.same(replies_to(t, line), ["E22 syntax"])


@each({it: it for it in ("revoke 1 01", "decline 1 01", "show 01", "show request 1", "show subscriber acme", "help")})
def a_script_has_none_of_these_words(t, line):
    t.register(lines=ENTERED + f"{DAY} request 01 superseded\n")
    t.same(t.desk("script", "ca.db", given=f"{DAY} {line}\n").out, b"E22 syntax\n")


def shown(t, word):
    (line,) = replies_to(t, f"show {word}")
    return json.loads(line)


@test
def what_is_shown_is_a_row_of_its_list(t):
    desk = opened(t)
    replies_to(t, "request 02 superseded", "request 03 superseded", "request 04 superseded", "revoke 1", "decline 3")
    rows = [(f"request {number}", "requests", number - 1) for number in (1, 2, 3)]
    for word, list_word, at in (*rows, ("02", "certificates", 1), ("04", "certificates", 3), ("subscriber beta", "subscribers", 1)):
        t.same(shown(t, word), json.loads(parted(desk.ask("GET", f"/list/{list_word}"))[2])["rows"][at], word)
    t.same((shown(t, "02")["status"], shown(t, "request 2")["serial"], shown(t, "subscriber acme")), ("revoked", serial(3), {"subscriber": 1, "name": "acme"}))
    t.same([shown(t, f"request {number}")["state"] for number in (1, 2, 3)], ["revoked", "open", "declined"], "the state of each request")


@test
def a_subscriber_with_a_name_of_64_bytes_is_shown(t):
    """A label has 64 bytes at most."""
    name = "a" * 64
    t.register(lines=f"{DAY} subscriber {name}\n")
    t.clock(DAY)
    t.open()
    with Control(t.room / "control", timeout=10) as control:
        t.same(json.loads(control.ask(f"show subscriber {name}")), {"subscriber": 1, "name": name})


@test
def what_is_not_there_is_refused(t):
    opened(t)
    replies_to(t, "request 02 superseded", "request 03 superseded", "revoke 1", "decline 2")
    t.same(
        replies_to(t, "show request 3", "show request 0", "show 05", "show subscriber gamma", "why"),
        ["E17 no-request", "E17 no-request", "E14 unknown-serial", "E06 no-subscriber", "why E06 no-subscriber"],
    )


SERIALS = {"the first": 1, "behind a byte of zeros": 256, "behind eighteen": 2**152, "the last": 2**159 - 1, "beside another": 257}


@each(SERIALS)
def a_certificate_is_shown_wherever_it_stands(t, number):
    lines = "".join(f"{DAY} order 1 398\n{DAY} register {order} {it:x} {DAY} {END}\n" for order, it in enumerate(sorted(SERIALS.values()), 1))
    t.register(lines=f"{DAY} subscriber acme\n{lines}")
    t.clock(DAY)
    t.open()
    t.same(shown(t, f"{number:x}")["serial"], serial(number))
    t.same(replies_to(t, f"show {2**100:x}"), ["E14 unknown-serial"])


@test(seconds=3)
def a_subscriber_behind_the_first_page_is_found(t):
    t.register(lines="".join(f"{DAY} subscriber s{number}\n" for number in range(260)))
    t.clock(DAY)
    t.open()
    t.same([shown(t, f"subscriber s{it}")["subscriber"] for it in (0, 249, 250, 259)], [1, 250, 251, 260])
    t.same(replies_to(t, "show subscriber s260"), ["E06 no-subscriber"])


@test(seconds=3)
def a_subscriber_behind_a_hundred_thousand_others_is_found(t):
    count = 100_001
    t.register()
    rows = "WITH RECURSIVE row (id) AS (SELECT 1 UNION ALL SELECT id + 1 FROM row WHERE id < ?) SELECT id, 's' || id FROM row"
    t.sql("ca.db", f"INSERT INTO subscriber {rows}", count)
    t.clock(DAY)
    t.open()
    t.same(shown(t, f"subscriber s{count}"), {"subscriber": count, "name": f"s{count}"})


@test(seconds=4)
def a_subscriber_is_looked_for_in_long_pages(t):
    """That takes less than one and a half times the processor time of the list of all 60,000, in pages of 250."""
    t.register()
    rows = "WITH RECURSIVE row (id) AS (SELECT 1 UNION ALL SELECT id + 1 FROM row WHERE id < ?) SELECT id, 's' || id FROM row"
    t.sql("ca.db", f"INSERT INTO subscriber {rows}", 60_000)
    t.clock(DAY)
    desk = t.open()
    begun = seconds_of(desk)
    t.same(shown(t, "subscriber s60000")["subscriber"], 60_000)
    look, begun = seconds_of(desk) - begun, seconds_of(desk)
    for after in range(0, 60_000, 250):
        t.same(parted(desk.ask("GET", f"/list/subscribers?limit=250&after={after}"))[0], 200, f"the page after {after}")
    listed = seconds_of(desk) - begun
    t.true(look < 1.5 * listed + 0.05, f"seconds of the processor: {look} for a look-up, {listed} for the list")


@test
def nothing_is_shown_while_the_clock_is_back(t):
    opened(t)
    replies_to(t, "crl")
    t.clock("2025-12-31T00:00:00Z")
    t.same(replies_to(t, "show 01", "revoke 1 01"), [f"E01 clock-back {DAY}"] * 2)


@each({it: it for it in ("status 01", "show 01", "revoke 1 01", "order 1 30")})
def why_names_a_clock_that_is_back(t, line):
    opened(t)
    replies_to(t, "crl")
    t.clock("2025-12-31T00:00:00Z")
    t.same(replies_to(t, "status x", line, "why"), ["E22 syntax", f"E01 clock-back {DAY}", f"why E01 clock-back {DAY}"])


@test
def help_lists_each_word_in_one_line(t):
    opened(t)
    (line,) = replies_to(t, "help")
    words = "subscriber order register request decline revoke crl status counts listing overdue next-crl ocsp show why schedule copy help".split()
    t.same([it for it in words if not re.search(rf"[:|] {it}\b", line)], [], "commands that the line lacks")
    t.same(t.desk("at", "control", given="help\r\n").status, 0)


# ---- the log


def tails(t, desk):
    """Ends the desk. Returns for each line of its log the request, and the text after the microseconds."""
    return [re.fullmatch(r'\S+ (\S+) "([^"]*)" "[^"]*" \d+ \d+(.*)', it).group(2, 3) for it in desk.end().err_lines]


@test
def the_log_names_each_request_that_is_entered_or_decided(t):
    desk = opened(t, "--log")
    desk.ask("POST", "/requests", b'{"serial":"03","ground":"key-compromise"}')
    desk.ask("POST", "/requests", b'{"serial":"09","ground":"superseded"}')
    replies_to(t, "request 01 superseded", "revoke 1", "revoke 2 03", "decline 2 01", "revoke 2", "revoke 7", "crl", "show 01", "request 04 asked", "decline 3")
    t.same(
        tails(t, desk),
        [
            ("POST /requests HTTP/1.1", f" request 1 {serial(3)} key-compromise"),
            ("POST /requests HTTP/1.1", ""),
            ("request 01 superseded", f" request 2 {serial(1)} superseded"),
            ("revoke 1", f" request 1 {serial(3)}"),
            ("revoke 2 03", ""),
            ("decline 2 01", f" request 2 {serial(1)}"),
            ("revoke 2", ""),
            ("revoke 7", ""),
            ("crl", ""),
            ("show 01", ""),
            ("request 04 asked", f" request 3 {serial(4)} asked"),
            ("decline 3", f" request 3 {serial(4)}"),
        ],
    )


@test(seconds=2)
def the_log_names_a_request_behind_hundreds_of_others(t):
    t.register(lines=ENTERED + f"{DAY} request 01 asked\n" * 600)
    t.clock(DAY)
    desk = t.open("ca.db", "--log")
    t.same(replies_to(t, "decline 599", "revoke 600"), ["declined", "revoked"])
    t.same(tails(t, desk), [("decline 599", f" request 599 {serial(1)}"), ("revoke 600", f" request 600 {serial(1)}")])


# ---- a log that is replayed


def a_day(t):
    """Makes a register of ENTERED, a copy of it, and the log of the commands after the copy."""
    desk = opened(t, "--log-file", "ca.log")
    replies_to(t, "copy copy.db")
    desk.ask("POST", "/requests", b'{"serial":"03","ground":"key-compromise"}')
    replies_to(t, "subscriber gamma", "order 3 100", f"register 5 05 {DAY} 2026-04-10T23:59:59Z", "counts", "status 05", "register 1 0f x y")
    replies_to(t, "request 01 superseded", "revoke 2", "decline 1 03", "request 05 superseded", "revoke 3 04", "revoke 3 05", "crl", "schedule 1970-01-01T00:00:00Z=300")
    desk.end()
    return (t.room / "ca.log").read_text()


REPLAYED = ["request 1 due", "subscriber 3", "order 5", "registered", "request 2 due", "revoked", "declined", "request 3 due", "revoked", "crl 1", "schedule set"]


@test
def a_log_is_replayed_to_a_copy(t):
    a_day(t)
    t.clock("2026-01-01T10:00:00Z")
    t.open("copy.db")
    ran = t.desk("replay", "control", "ca.log")
    t.same((ran.status, ran.err), (0, b""), "status and standard error")
    t.same([line.startswith(part) for line, part in zip(ran.out.decode().splitlines(), REPLAYED, strict=True)], [True] * len(REPLAYED), ran.out)
    t.same(replies_to(t, "status 01", "status 03", "status 05")[1:2], ["good"])
    t.same([it.split()[0] for it in replies_to(t, "status 01", "status 05")], ["revoked"] * 2)


# Which lines of the log an older desk wrote. It calls the control socket `counter`.
OLDER = {"all": lambda at: True, "the first five, before an upgrade": lambda at: at < 5, "each second": lambda at: at % 2 == 0}


@each(OLDER)
def a_log_of_an_older_desk_is_replayed_as_well(t, is_older):
    log = a_day(t).splitlines(keepends=True)
    mixed = [line.replace("Z control ", "Z counter ") if is_older(at) else line for at, line in enumerate(log)]
    t.same({line.split(" ")[1] for line in log if "127.0.0.1" not in line}, {"control"}, "the name of the control socket in the log")
    t.true(mixed != log, "the log has no line of an older desk")
    (t.room / "ca.log").write_text("".join(mixed))
    desk = t.open("copy.db")
    replies = t.done("replay", "control", "ca.log").splitlines()
    desk.end()
    t.same([line.startswith(part) for line, part in zip(replies, REPLAYED, strict=True)], [True] * len(REPLAYED), replies)
    for word in ("subscribers", "orders", "certificates", "requests", "revoked", "crls"):
        t.same(t.done("list", "copy.db", word), t.done("list", "ca.db", word), word)


@test
def a_line_of_more_than_two_hundred_bytes_is_replayed(t):
    """The log has the whole line if it has fewer than 256 bytes, as a schedule of nine steps has."""
    opened(t)
    line = "schedule " + " ".join(f"{year}-01-01T00:00:00Z=398" for year in range(1970, 1979))
    (t.room / "ca.log").write_text(f'{DAY} control "{line}" "schedule set" 13 99\n{DAY} control "subscriber gamma" "subscriber 3" 13 99\n')
    t.same(t.done("replay", "control", "ca.log"), "schedule set\nsubscriber 3\n")


@test
def a_request_that_came_between_shifts_no_revocation(t):
    a_day(t)
    desk = t.open("copy.db")
    for number in (4, 4):
        desk.ask("POST", "/requests", f'{{"serial":"0{number}","ground":"superseded"}}'.encode())
    t.same(t.desk("replay", "control", "ca.log").status, 0)
    t.same([it.split()[0] for it in replies_to(t, "status 01", "status 03", "status 04", "status 05")], ["revoked", "good", "good", "revoked"])


@test
def it_stops_at_the_first_reply_that_differs(t):
    log = a_day(t)
    t.open("copy.db")
    replies_to(t, "subscriber other")
    ran = t.desk("replay", "control", "ca.log")
    line = next(it for it in log.splitlines() if '"subscriber gamma"' in it)
    t.same((ran.status, ran.err), (3, b"refused\n"), "status and standard error")
    t.same(ran.out.decode().splitlines()[1:], ["subscriber 4", line], "the reply that differs, and the log's line")
    t.same(replies_to(t, "counts"), ["good 4 revoked 0 expired 0"], "the counts, since no later line was sent")


@test
def a_request_from_before_the_log_is_decided_where_it_is_for_the_same_serial_number(t):
    t.register(lines=ENTERED + f"{DAY} request 02 superseded\n")
    t.clock(DAY)
    t.open("ca.db")
    (t.room / "ca.log").write_text(f'{DAY} control "revoke 1" "revoked" 8 99 request 1 {serial(3)}\n')
    ran = t.desk("replay", "control", "ca.log")
    t.same((ran.status, ran.out.decode().splitlines()[0]), (3, "E17 no-request"))
    (t.room / "ca.log").write_text(f'{DAY} control "revoke 1" "revoked" 8 99 request 1 {serial(2)}\n')
    t.same(t.done("replay", "control", "ca.log"), "revoked\n")


UNKNOWN = {
    "a revocation whose request is not named": f'{DAY} control "revoke 1" "revoked" 8 99\n',
    "the same by an older desk": f'{DAY} counter "revoke 1" "revoked" 8 99\n',
    "a request that is not named": f'{DAY} control "request 01 superseded" "request 1 due {DUE}" 39 99\n',
    "an escape": f'{DAY} control "subscriber g\\xc3\\xa4mma" "subscriber 3" 13 99\n',
    "a request whose name can't be read": f'{DAY} 127.0.0.1:1 "POST /requests HTTP/1.1" "HTTP/1.1 200 OK" 173 99 request 1 0x superseded\n',
    "two lines, of which the first was not written whole": f'{DAY} 127.0.0.1:1 "GET /crl HTTP/1.1" "HT{DAY} control "revoke 1" "revoked" 8 99 request 1 {serial(1)}\n',
    "a line that was not written whole, and a lost connection": f'{DAY} control "revoke 1" "rev{DAY} control lost broken\n',
    "a line that was cut": f'{DAY} control "{("schedule" + " 1970-01-01T00:00:00Z=398" * 16)[:256]}" "schedule set" 13 99\n',
}


@each(UNKNOWN)
def a_log_line_that_is_not_whole_stops_it(t, line):
    opened(t)
    (t.room / "ca.log").write_text(line + f'{DAY} control "subscriber gamma" "subscriber 3" 13 99\n')
    ran = t.desk("replay", "control", "ca.log")
    t.same((ran.status, ran.out.decode(), ran.err), (3, line, b"refused\n"))


LEFT_OUT = {
    "a refusal": f'{DAY} control "subscriber acme" "E05 name-taken 1" 17 99\n',
    "a fault": f'{DAY} control "crl" "F3 signer" 10 99 signer\n',
    "no reply": f'{DAY} control "subscriber gamma" "" 0 99\n',
    "a query": f'{DAY} control "counts" "good 9 revoked 9 expired 9" 27 99\n',
    "a copy": f'{DAY} control "copy x" "copied 1 bytes in 1 ms" 23 99\n',
    "an exchange": f'{DAY} 127.0.0.1:1 "GET /counts HTTP/1.1" "HTTP/1.1 200 OK" 155 99\n',
    "a client's line that looks like one at the control socket": f'{DAY} 127.0.0.1:1 "subscriber gamma" "HTTP/1.1 400 Bad Request" 155 99\n',
    "a connection that was lost": f"{DAY} control lost broken\n",
    **{f"a line of {client!r}": f'{DAY} {client} "subscriber gamma" "subscriber 3" 13 99\n' for client in ("controls", "counters", "contro", "Control", "COUNTER", "desk", "control\t", "")},
    "another text": "subscriber gamma\n\n",
    "nothing": "",
}


@each(LEFT_OUT)
def what_was_no_accepted_command_is_left_out(t, line):
    opened(t)
    (t.room / "ca.log").write_text(line)
    t.same(t.done("replay", "control", "ca.log"), "")
    t.same(replies_to(t, "subscriber gamma"), ["subscriber 3"])


@test
def a_last_line_without_its_end_is_not_replayed(t):
    opened(t)
    (t.room / "ca.log").write_text(f'{DAY} control "subscriber gamma" "subscriber 3" 13 99\n{DAY} control "subscriber delta" "subscriber 4" 13 99')
    ran = t.desk("replay", "control", "ca.log")
    t.same((ran.status, ran.out, ran.err), (3, b"subscriber 3\n", b"no-line-end\n"))


@each({"no socket": ("replay", "none", "ca.log"), "no log": ("replay", "control", "none")})
def nobody_or_nothing_is_read(t, *words):
    opened(t)
    (t.room / "ca.log").write_text("")
    ran = t.desk(*words)
    t.same((ran.status, ran.err), (1, b"F4 read\n"))
