"""The enforced order of a chart, and the order where each instance finishes what a message makes it do before it receives
again, both by their definitions: a plain closure under the rules, with no closed form.

An event is named by its place in one list of all events. Orders are numbers whose bits are events.
"""


class Chart:
    """A chart's text: for each event its line, its index there from 1, its direction, lane, turn and coregion."""

    def __init__(self, text):
        self.lines, self.events, self.regions = {}, [], {}
        name, region, regions = None, 0, 0
        for line in text.split("endmsc;\n")[0].splitlines():
            words = line.rstrip(";").split()
            if words[0] == "instance":
                name, region, regions = words[1], 0, 0
                self.lines[name] = []
            elif words[0] == "concurrent":
                regions += 1
                region = regions
            elif words[0] == "endconcurrent":
                region = 0
            elif words[0] in ("in", "out"):
                self.regions[len(self.events)] = region
                self.lines[name].append(len(self.events))
                self.events.append((name, len(self.lines[name]), words[0], words[3]))
        self.find_partners()

    def is_send(self, event):
        return self.events[event][2] == "out"

    def find_partners(self):
        turns, ends = {}, {}
        for event, (name, _, direction, partner) in enumerate(self.events):
            lane = (name, partner) if direction == "out" else (partner, name)
            turn = turns[direction, lane] = turns.get((direction, lane), 0) + 1
            ends[direction, lane, turn] = event
        self.send_of = {receive: ends["out", lane, turn] for (direction, lane, turn), receive in ends.items() if direction == "in"}
        self.sender_before = {}
        last = {}
        for event, (name, _, direction, partner) in enumerate(self.events):
            if direction == "in":
                self.sender_before[event] = last.get((name, partner))
                last[name, partner] = event

    def handled_by(self, send):
        """The receives of the send's line that the send belongs to."""
        name, index, _, _ = self.events[send]
        above = self.lines[name][: index - 1]
        return [
            receive
            for place, receive in enumerate(above)
            if not self.is_send(receive)
            and all(
                self.is_send(other) or (self.regions[other] and self.regions[other] == self.regions[receive])
                for other in above[place + 1 :]
            )
        ]

    def in_order(self):
        """All events, each behind what is directly before it, and each line as it stands."""
        passed = dict.fromkeys(self.lines, 0)
        done, order = set(), []
        going = True
        while going:
            going = False
            for name, events in self.lines.items():
                while passed[name] < len(events):
                    event = events[passed[name]]
                    if not self.is_send(event) and self.send_of[event] not in done:
                        break
                    done.add(event)
                    order.append(event)
                    passed[name] += 1
                    going = True
        return order

    def before(self, finished):
        """What is enforced before each event; with `finished`, these pairs are ordered too."""
        before = {}
        for event in self.in_order():
            name, index, _, _ = self.events[event]
            if self.is_send(event):
                direct = self.lines[name][: index - 1]
            else:
                direct = [self.send_of[event], self.sender_before[event], *finished.get(event, ())]
            reached = 0
            for other in direct:
                if other is not None:
                    reached |= before[other] | 1 << other
            before[event] = reached
        return before

    def completed(self):
        """What comes before each event where instances finish."""
        handling = {}
        for event in range(len(self.events)):
            if self.is_send(event):
                receives = self.handled_by(event)
                if receives:
                    handling[event] = sum(1 << receive for receive in receives)
        finished = {}
        while True:
            before = self.before(finished)
            more = False
            for events in self.lines.values():
                for place, receive in enumerate(events):
                    if self.is_send(receive):
                        continue
                    for send in events[:place]:
                        mask = handling.get(send)
                        if mask and mask & before[receive] == mask and not before[receive] >> send & 1:
                            finished.setdefault(receive, []).append(send)
                            more = True
            if not more:
                return before


def left_races(chart, races):
    """The races whose earlier event isn't before the receive where instances finish."""
    before = chart.completed()
    return [
        (name, earlier, receive)
        for name, earlier, receive in races
        if not before[chart.lines[name][int(receive) - 1]] >> chart.lines[name][int(earlier) - 1] & 1
    ]
