"""Plays houses on the panel for a serial line and holds what it says, its lines of JSON, to what must happen. Times are shorter by the option --faster."""
import fcntl
import os
import random
import re
import select
import struct
import subprocess
import sys
import termios
import threading
import time

from played import Boards, Failed, Panel, Program, command_of

FASTER = 20
SILENCE = ["--silence", "6"]  # milliseconds: pieces of a frame come closer together on a pseudo-terminal
MACS = {"thermostat": "00001a2b00000101", "furnace": "00001a2b00000202", "heatpump": "00001a2b00000505"}
# the boards that speak 1.0; the subnets in a frame's digits, by the version
OLD = {"furnace"}
SUBNETS = {1: "02", 2: "03"}
# the heat call's payload: the command's code in two bytes, 70 percent, 0
HEAT = "64004600"

out = sys.argv[1]
link = os.path.join(out, "line")


def check(holds, what):
    if not holds:
        raise Failed(what)


def payload(event):
    return event["frame"][20:-4]


def subnet(event):
    return event["frame"][4:6]


def list_for(name, homes):
    """The types that a board gets in its list, behind the internal one: by positions. For a 1.0 board they are 15 bytes, in which 1.0 boards stand at their
    positions and the others where it is open (Networking Specification, 8.1.2.4)."""
    boards = sorted(homes.values(), key=lambda home: home["position"])
    kinds = [home["type"] for home in boards]
    if name in OLD:
        kinds = [0] * 15
        for home in sorted(boards, key=lambda home: home["version"]):
            kinds[home["position"] - 1 if home["version"] == 1 else kinds.index(0)] = home["type"]
    return "".join(f"{kind:02X}" for kind in kinds)


def joined(panel, place=0, names=tuple(MACS), seconds=30):
    """Waits until these boards have joined. Where each is: its event."""
    return {name: panel.event("joined", place, seconds, mac=MACS[name])[1] for name in names}


def answers(panel, position, place=0):
    """Waits until the board answers an offer. Where that was said."""
    return panel.event("taken", place, exchange="offer", position=position)[0] + 1


def all_are_found(panel, boards):
    """Three boards are found, identified, addressed and listed, and no join was given by hand."""
    for name in MACS:
        boards.order(f"plug {name}")
    homes = joined(panel)
    for name, home in homes.items():
        position, address = home["position"], home["address"]
        for exchange in "identify", "assign":
            check(panel.events("sent", exchange=exchange, position=position), f"{name} had no {exchange}")
        check(address == 15 + position, f"{name} is at address {address}")
        boards.wait(f"{name} has its address", lambda line, n=name, a=address: line == f"{n}: address {a}")
    for name, home in homes.items():
        _, sent = panel.wait(f"{name} gets the list of all", lambda e, h=home, types=list_for(name, homes): e["event"] == "sent"
                             and e["exchange"] == "list" and e["position"] == h["position"] and payload(e)[2:] == types)
        panel.event("taken", panel.said.index(sent), exchange="list", position=home["position"])
    return homes


def each_has_its_subnet(panel, homes):
    """The furnace speaks 1.0: it was assigned subnet 2, and whatever went to it and came from it had that. All others have ours."""
    for name, home in homes.items():
        version, position = 1 if name in OLD else 2, home["position"]
        check(home["version"] == version, f"{name} is listed as version {home['version']}")
        of_it = [e for e in panel.since(0) if e.get("position") == position]
        assigned = [payload(e)[2:4] for e in of_it if e["event"] == "sent" and e["exchange"] == "assign"]
        check(assigned[-1] == SUBNETS[version], f"{name} was assigned subnet {assigned[-1]}")
        frames = [e for e in of_it if e["event"] in ("sent", "taken") and e["exchange"] in ("offer", "list", "forward", "return")]
        check({subnet(e) for e in frames} == {SUBNETS[version]}, f"{name} is spoken to, or speaks, in another subnet than its own")


def heat_is_carried(panel, boards, homes):
    """A heat call reaches the heat pump, and its answer comes back."""
    place = panel.place()
    boards.order("heat thermostat 70")
    pump, thermostat = homes["heatpump"]["position"], homes["thermostat"]["position"]
    for name, exchange, position in ("sent", "forward", pump), ("taken", "forward", pump), ("sent", "return", thermostat), \
                                    ("taken", "return", thermostat):
        place, event = panel.event(name, place, exchange=exchange, position=position)
        check(exchange == "return" and name == "taken" or payload(event) == HEAT, f"{name} {exchange} carries {payload(event)}")
    boards.wait("the call at the heat pump", lambda line: line == "heatpump: control command 64 00 46 00")
    boards.wait("the answer at the thermostat", lambda line: line == "thermostat: answer 64 00 46 00")


def texts_are_shown(panel, boards, homes):
    """A text, a fault and its end reach the panel, which says of each what there is to show."""
    home, place = homes["furnace"], panel.place()
    for order, message, text in ("display furnace CHANGE FILTER", 4, 'to be displayed, "CHANGE FILTER"'), \
                                ("fault furnace 31 0 NO  FLAME", 5, 'fault of the furnace, major 31, minor 0, "NO  FLAME"'), \
                                ("fault furnace 0 0", 5, "the fault of the furnace is gone"):
        boards.order(order)
        place, event = panel.event("delivered", place, position=home["position"], message=message)
        check(event["text"] == "for the host: " + text, f"{order} is shown as {event['text']}")
        place += 1


def shared_data_is_served(panel, boards, homes):
    """The furnace has its settings stored, and is served them when it asks; for the thermostat's type nothing was stored."""
    record, place = "0B 01 00 01 00 02 34 35 20 33 30", panel.place()
    for name, order, message, text in ("furnace", "store furnace 45 30", 16, f"sector 2 stored in slot 1, 11 bytes: {record}"), \
                                      ("furnace", "fetch furnace", 17, f"sector 2 served from the network's copy, slot 1, 12 bytes: 02 {record}"), \
                                      ("thermostat", "fetch thermostat", 17, "sector 1 has no record in either image: an empty payload"):
        boards.order(order)
        place, event = panel.event("delivered", place, position=homes[name]["position"], message=message)
        check(event["text"] == "for the host: " + text, f"{order} is shown as {event['text']}")
        place += 1


def single_misses_drop_nobody(panel, boards, homes):
    """Forty misses of the furnace, one or two in a row, with an answer after each."""
    position, place = homes["furnace"]["position"], panel.place()
    first, misses = place, 0
    while misses < 40:
        in_a_row = 2 if misses % 8 == 0 else 1
        boards.order(f"deaf furnace {in_a_row}")
        place = panel.event("quiet", place, position=position, misses=in_a_row)[0] + 1
        place = answers(panel, position, place)
        misses += in_a_row
    check(not panel.events("dropped", first), "a board was dropped, though never three in a row were missed")


def another_system_is_not_heard(panel, boards, homes, name):
    """Two messages to a board are answered by another system's board at its address: refused 24, and two misses."""
    position = homes[name]["position"]
    first = place = answers(panel, position, panel.place())
    boards.order(f"elsewhere {name} 2")
    for misses in 1, 2:
        place, refused = panel.event("refused", place, call="frame")
        check(refused["number"] == 24, f"another system's frame is refused {refused['number']}")
        place = panel.event("quiet", place, position=position, misses=misses)[0]
    answers(panel, position, place)
    check(not panel.events("dropped", first), "a board was dropped, though it answered after two misses")


def unplugged_is_dropped(panel, boards, homes):
    """An unplugged board is dropped at its third unanswered message in a row, and not before. Plugged in again it has its address."""
    home, place = homes["furnace"], answers(panel, homes["furnace"]["position"], panel.place())
    boards.order("unplug furnace")
    end, _ = panel.event("dropped", place, position=home["position"], mac=home["mac"])
    of_it = [e for e in panel.said[place:end] if e.get("position") == home["position"] and e.get("exchange") in
             ("offer", "list", "forward", "return")]
    last = max((i for i, e in enumerate(of_it) if e["event"] == "taken"), default=-1)
    run = [(e["event"], e.get("misses")) for e in of_it[last + 1:]]
    run = run[1:] if run[0][0] == "quiet" else run  # of a message before the order
    check(run == [("sent", None), ("quiet", 1), ("sent", None), ("quiet", 2), ("sent", None), ("quiet", 3)],
          f"the furnace was dropped after {run}")
    place = panel.place()
    boards.order("plug furnace")
    again = joined(panel, place, ["furnace"])["furnace"]
    check(again["address"] == home["address"], f"the furnace is now at address {again['address']}")
    answers(panel, again["position"], place)


def noise_costs_no_board(panel, boards, homes):
    """Noise between frames costs no answer, noise inside one costs that answer, and nobody is dropped."""
    first = panel.place()
    for i in range(12):
        name = list(MACS)[i % 3]
        position = homes[name]["position"]
        where = "before" if i % 2 else "after"
        place = answers(panel, position, panel.place())
        boards.order(f"noise {name} {where} {5 + 20 * i}")
        place = panel.event("noise", place)[0]
        answers(panel, position, place)
    check(not panel.events("quiet", first, exchange="offer"), "noise beside a frame cost it")
    for i in range(6):
        name = list(MACS)[i % 3]
        place = panel.place()
        boards.order(f"noise {name} inside {1 + i}")
        place, refused = panel.event("refused", place, call="frame")
        check(1 <= refused["number"] <= 4, f"a damaged frame is refused {refused['number']}")
        place = panel.event("quiet", place, position=homes[name]["position"], misses=1)[0]
        answers(panel, homes[name]["position"], place)
    for _ in range(10):
        boards.order("noise 300")
    place = panel.place()
    for name in MACS:
        answers(panel, homes[name]["position"], place)
    check(not panel.events("dropped", first), "noise cost a board its place")


def power_goes_and_comes(panel, boards, homes):
    """Without power all are dropped; with it all come back. One comes back as something else, to its own place."""
    place = panel.place()
    boards.order("power off all")
    for home in homes.values():
        panel.event("dropped", place, mac=home["mac"])
    boards.order("power on all")
    homes = joined(panel, place)
    place = panel.place()
    boards.order("jumper furnace 3")
    _, again = panel.event("joined", place, 30, mac=MACS["furnace"])
    check((again["type"], again["version"], again["position"]) == (3, 1, homes["furnace"]["position"]), f"the furnace is now {again}")
    return homes


def version_changes(panel, boards, homes):
    """The furnace comes back to its own place as a 2.0 board, and then as a 1.0 board again: it is spoken to in the subnet of what it is."""
    position = homes["furnace"]["position"]
    for version in 2, 1:
        place = panel.place()
        boards.order(f"version furnace {version}")
        place, again = panel.event("joined", place, 30, mac=MACS["furnace"])
        check((again["version"], again["position"]) == (version, position), f"the furnace is now {again}")
        place, offer = panel.event("sent", place, exchange="offer", position=position)
        check(subnet(offer) == SUBNETS[version], f"as version {version} it is offered the bus in subnet {subnet(offer)}")
        answers(panel, position, place)


def device_comes_back(panel, boards):
    """The boards' process is killed, and with it the line; both are there again, and so are all boards."""
    place = panel.place()
    boards.kill()
    panel.event("lost", place)
    boards = Boards(out, link, FASTER)
    panel.event("opened", place)
    homes = joined(panel, place)
    place = panel.place()
    for home in homes.values():
        answers(panel, home["position"], place)
    return boards


def panel_comes_back(panel):
    """The panel's process is killed; started again it lists all boards, which have kept their addresses."""
    panel.kill()
    panel = Panel(out, link, FASTER, *SILENCE)
    homes = joined(panel)
    place = panel.place()
    for home in homes.values():
        answers(panel, home["position"], place)
    return panel


def end_is_clean(panel):
    check(panel.stop() == 0, "the panel did not end with 0 when it was stopped")
    counts = panel.said[-1]
    check(counts["event"] == "stopped", f"the last line is {counts}")
    for name, events in ("joins", "joined"), ("drops", "dropped"):
        check(counts[name] == len(panel.events(events)), f"{name} are {counts[name]}")
    check(counts["offers"] == len(panel.events("sent", exchange="offer")), "offers are counted wrongly")


def capture_has_what_was_said(capture, events):
    """What was captured is what these events, from the first on, say went over the line: frames, answers, ACKs."""
    said = "".join(event.get("frame", "") + event.get("ack", "") for event in events)
    with open(capture, "rb") as file:
        captured = file.read().hex().upper()
    check(len(said) > 10000 and captured.startswith(said), "the capture is not what the events say")


def capture_lists(capture):
    """What was captured is frames to framelist, and the first is Node Discovery: to all, from the panel, type 121."""
    with open(capture, "rb") as file:
        listed = subprocess.run(command_of(out, "framelist"), stdin=file, capture_output=True, text=True, check=True).stdout.splitlines()
    check(listed[0] == "0 0 255 121 1" and len(listed) > 50, f"framelist lists {len(listed)} frames, first {listed[:1]}")


def full_disk_stops_only_the_capture():
    panel = Panel(out, link, FASTER, "--capture", "/dev/full", *SILENCE)
    place, _ = panel.event("capture")
    panel.event("joined", place)
    check(panel.stop() == 0, "the panel did not end well after a full disk")
    check(len(panel.events("capture")) == 1, "the end of the capture is told more than once")


def read_until(reader, lasts=(), seconds=20):
    """Reads until all of these have come, or the end."""
    text, end = "", time.monotonic() + seconds
    while not (lasts and all(last in text for last in lasts)) and select.select([reader], [], [], max(0, end - time.monotonic()))[0]:
        try:
            piece = os.read(reader, 65536).decode()
        except OSError:  # what a terminal gives when its other end is closed
            piece = ""
        if not piece:
            break
        text += piece
    return text


def shown(boards, is_screen, *lasts):
    """What the panel shows without --json, on a terminal of 30 rows or not on one, until it has shown all of these and is stopped."""
    boards.order("power off all")
    boards.order("power on all")
    reader, writer = os.openpty() if is_screen else os.pipe()
    if is_screen:
        fcntl.ioctl(writer, termios.TIOCSWINSZ, struct.pack("HHHH", 30, 90, 0, 0))
    panel = subprocess.Popen(command_of(out, "panel") + [link, "--faster", str(FASTER), *SILENCE], stdin=subprocess.DEVNULL, stdout=writer)
    os.close(writer)
    try:
        text = read_until(reader, lasts)
        panel.terminate()
        text += read_until(reader)
        check(panel.wait(20) == 0 and all(last in text for last in lasts), f"the panel did not show all of {lasts}: {text[-1000:]}")
    finally:
        panel.kill()
        os.close(reader)
    return text


def shows_what_happens(boards):
    """A screen with a row for each board, which has its version and its index, and the terminal as it was afterwards; not on a terminal, a line for each
    event."""
    boards.order("plug second 2 1A2B00000303")
    furnaces = [f"{'furnace (2)':20} {version} " for version in ("1.0", "2.0")]
    screen = shown(boards, True, "listed: heat pump", *furnaces)
    check({index for index in "01" if re.search(rf"furnace \(2\) +[12]\.0 +{index} ", screen)} == {"0", "1"}, "two furnaces have not the indexes 0 and 1")
    check(screen.startswith("\x1b[?1049h") and "\x1b[?1049l" in screen, "the terminal's other screen is not taken and left")
    check("Nadrelgos on " + link in screen and "heat pump (5)" in screen, "the screen has no head or no row")
    lines = [line.split(None, 2) for line in shown(boards, False, "listed: heat pump").splitlines()]
    check({"setup", "sent", "taken", "joined"} <= {line[1] for line in lines}, "there is not a line for each event")
    check("\x1b" not in str(lines), "lines move the cursor")


def flood(master, is_over):
    """Writes anything to the line, and reads what comes from it, until it is over."""
    chance = random.Random(485)
    os.set_blocking(master, False)
    while not is_over.is_set():
        try:
            os.write(master, chance.randbytes(chance.choice([1, 12, 250, 1000])))
            os.read(master, 65536)
        except BlockingIOError:
            time.sleep(0.001)
        if chance.random() < 0.1:
            time.sleep(0.02)


def any_bytes(seconds=2):
    """Anything on the line, for a while: the panel goes on all the time, and ends well in the midst of it."""
    master, slave = os.openpty()
    is_over = threading.Event()
    writer = threading.Thread(target=flood, args=(master, is_over))
    panel = Panel(out, os.ttyname(slave), 100, *SILENCE)
    writer.start()
    try:
        time.sleep(seconds)
        for _ in range(3):
            panel.event("sent", panel.place(), exchange="search")
        check(panel.events("refused", call="frame"), "nothing on the line was refused")
        check(panel.stop() == 0, "the panel did not end well in noise")
    finally:
        is_over.set()
        writer.join()
    os.close(slave)
    os.close(master)


def sixteenth_type_waits():
    """While a 1.0 board is listed, boards of fifteen types are, and one of a sixteenth is found and cannot join. It joins once the furnace is a 2.0 board."""
    boards = Boards(out, link, 50)
    panel = Panel(out, link, 50, "--silence", "3")
    joined(panel)
    for kind in range(30, 42):
        boards.order(f"plug more{kind} {kind} 1A2B000006{kind}")
    for kind in range(30, 42):
        panel.event("joined", 0, 60, type=kind)
    place = panel.place()
    boards.order("plug last 42 1A2B00000642")
    place, found = panel.event("taken", place, 60, exchange="search", answer="rest")
    check("due" not in found and payload(found)[:2] == "2A", f"the sixteenth type is found, and then: {found}")
    check(not panel.events("joined", type=42), "a sixteenth type is listed beside a 1.0 board")
    boards.order("version furnace 2")
    panel.event("joined", place, 60, type=42)
    check(panel.stop() == 0, "the panel did not end well with sixteen types")
    boards.stop()


def wrong_words():
    """What cannot be done is said in words, with the exit status that the help states."""
    command = command_of(out, "panel")
    plain = os.path.join(out, "panel.words")
    for words, status, said in (["--help"], 0, ""), (["--bogus"], 2, "is no option"), (["--baud", "9601", link], 2, "cannot be 9601"), \
            (["--look"], 2, "needs a value"), (["--json=1", link], 2, "takes no value"), ([link, link], 2, "is a device already"), \
            ([os.path.join(out, "none")], 3, "No such file"), ([plain], 3, "no serial device"), \
            ([link, "--capture", os.path.join(out, "none", "file")], 4, "No such file"), ([link, "--rs485"], 3, "RS-485"):
        done = subprocess.run(command + words, capture_output=True, text=True, timeout=20)
        check(done.returncode == status and said in done.stderr, f"{words} ends with {done.returncode}: {done.stderr}")


def main():
    began = time.monotonic()
    capture = os.path.join(out, "captured.bin")
    boards = Boards(out, link, FASTER, "--empty", "--seed", "485")
    wrong_words()
    panel = Panel(out, link, FASTER, "--capture", capture, *SILENCE)
    homes = all_are_found(panel, boards)
    heat_is_carried(panel, boards, homes)
    each_has_its_subnet(panel, homes)
    texts_are_shown(panel, boards, homes)
    shared_data_is_served(panel, boards, homes)
    single_misses_drop_nobody(panel, boards, homes)
    for name in "furnace", "thermostat":
        another_system_is_not_heard(panel, boards, homes, name)
    unplugged_is_dropped(panel, boards, homes)
    before_noise = panel.since(0)
    noise_costs_no_board(panel, boards, homes)
    homes = power_goes_and_comes(panel, boards, homes)
    version_changes(panel, boards, homes)
    boards = device_comes_back(panel, boards)
    panel = panel_comes_back(panel)
    end_is_clean(panel)
    capture_has_what_was_said(capture, before_noise)
    capture_lists(capture)
    boards.order("power off all")
    boards.order("power on all")
    full_disk_stops_only_the_capture()
    shows_what_happens(boards)
    boards.stop()
    sixteenth_type_waits()
    any_bytes()
    print(f"line: all as it must be, {time.monotonic() - began:.0f} s")


try:
    main()
except Failed as failed:
    print(f"line: {failed}", file=sys.stderr)
    sys.exit(1)
finally:
    Program.kill_all()
