"""Small random NEM12 files with all kinds of lines, most of them in place and well formed. Each run makes the same files."""

from inputs.file_parts import record_300

HEADERS = [
    "100,NEM12,202401030000,MDP1,RETAILER",
    "100,NEM12,202401030000",
    "100,NEM12,20240103000000,,,,",
    "100,NEM12,202401030000,MDP1",
    "100,NEM12,20240103010203,MDP1,RETAILER",
    "100,NEM12,202401030000,MDP1,RETAILER",
    "100,NEM13,202401030000,MDP1,RETAILER",
    "100,NEM12,20240103000,MDP1,RETAILER",
    "100,NEM12",
]

DETAILS = [
    "200,NEM1201009,E1,1,E1,N1,01009,kWh,30,",
    "200,NEM1201010,,,B2,,,KVARH,30",
    "200,NEM1201009,E1,1,Q1,N1,01009,kvarh,30,20250101",
    "200,1234567890,,,11,,,pf,30",
    "200,NEM1201009,,,E1,,,MWh,30,,,",
    "200,NEM1201009,E1,1,E1,N1,01009,W,30,",
    "200,NEM1201009,,,E1,,,kWh,15",
    "200,NEM1201009,,,E1,,,kWh,05",
    "200,NEM120100,E1,1,E1,N1,01009,kWh,30,",
    "200,NEM1201009,E1,1,E1,N1,01009,kW h,30,",
    "200,NEM1201009,E1,1,E1,N1,01009,kWh,3,20250101",
    "200,NEM1201009,E1,1,E1,N1,01009,kWh",
]

EVENTS = ["500", "500,O,S1,20240102010203,1", "500,A", "500,,,,12.5", "500,O,,,,,", "500,o", "500,,,2024010201020", "500,,,,,x"]
OTHERS = ["", "", "", "\r", "201", "250,NEM1201009", "550,N", "9", "900,x", "0100"]
DATES = ["20240101", "20240229", "19700101", "20230229"]
QUALITIES = ["V", "V,76,late", "V", "A", "A,76", "N", "S14,,late,20240102010203", "E52,,,,", "F1"]
VALUES = ["1.5", "0", "-.000001", "12.25", "999999999999.999999", "0007.5000000"]
BAD_VALUES = ["1e3", "0.0000001", "1000000000000", "-"]
RUN_QUALITIES = ["A", "S14", "F14,76", "N", "E52,,late", "N,,,", "A,076,", "V"]

# The kinds of lines, 0 for a line that is no record, and the kinds that can follow a 200, a 500 and any other. Likely ones are listed more
# often.
ANY_KIND = [0, 0, 0, 100, 200, 300, 400, 500, 900]
AFTER_DETAILS = [200, 300, 300, 300]
AFTER_EVENT = [500, 300, 200]
AFTER_OTHER = [400, 400, 400, 300, 500, 200]


class Numbers:
    """Numbers that look random, and are the same for the same seed on every machine."""

    def __init__(self, seed):
        self.state = seed

    def below(self, limit):
        self.state = (self.state * 6364136223846793005 + 1442695040888963407) % 2**64
        return (self.state >> 33) % limit

    def pick(self, things):
        return things[self.below(len(things))]

    def seldom(self, times):
        """Whether it is the one time in so many."""
        return self.below(times) == 0


class Making:
    """A file in the making: its text, the kind of its last record, how many intervals a day has, and the interval after the last run."""

    def __init__(self, numbers):
        self.numbers = numbers
        self.text = b""
        self.kind = 0
        self.count = 48
        self.next = 1

    def next_kind(self):
        """A kind of line, mostly one that can follow the last record."""
        if self.numbers.seldom(20):
            return self.numbers.pick(ANY_KIND)
        if self.kind == 0:
            return 100
        if self.kind == 100:
            return 200
        return self.numbers.pick({200: AFTER_DETAILS, 500: AFTER_EVENT}.get(self.kind, AFTER_OTHER))

    def put_line(self, kind):
        """Adds a line of a kind, and its end, to the text."""
        self.text += self.line(kind).encode()
        if kind > 0:
            self.kind = kind
        if self.numbers.seldom(100):
            self.text += b"\xff"
        self.text += b"\r\n" if self.numbers.seldom(8) else b"\n"

    def line(self, kind):
        if kind == 100:
            return self.numbers.pick(HEADERS)
        if kind == 200:
            return self.details()
        if kind == 300:
            return self.day()
        if kind == 400:
            return self.run()
        if kind == 500:
            return self.numbers.pick(EVENTS)
        return "900" if kind == 900 else self.numbers.pick(OTHERS)

    def details(self):
        line = self.numbers.pick(DETAILS)
        self.count = 96 if line.endswith("15") else 288 if line.endswith("05") else 48
        return line

    def day(self):
        """A 300, mostly with as many values as the last 200 says."""
        date, quality = self.numbers.pick(DATES), self.numbers.pick(QUALITIES)
        may_have_empties = quality[0] in "VN" or self.numbers.seldom(8)
        empties = self.numbers.below(6) if may_have_empties else 0
        count = self.count + (1 if self.numbers.seldom(40) else 0)
        values = [self.value(empties) for _ in range(count)]
        self.next = 1
        return record_300(date, values, quality).removesuffix("\n")

    def value(self, empties):
        """A value: all values of a day are empty, or some, or none."""
        if empties == 1 or (empties == 2 and self.numbers.seldom(8)):
            return ""
        return self.numbers.pick(BAD_VALUES) if self.numbers.seldom(2000) else self.numbers.pick(VALUES)

    def run(self):
        """A 400, mostly of a run that begins after the last one."""
        first = self.numbers.below(50) if self.numbers.seldom(10) else self.next
        last = self.count if self.numbers.seldom(2) else first + self.numbers.below(self.count // 2)
        self.next = last + 1
        return f"400,{first},{last},{self.numbers.pick(RUN_QUALITIES)}"


def made_file(numbers):
    """A file of a few lines."""
    lines = numbers.below(10)
    making = Making(numbers)
    for _ in range(lines):
        making.put_line(making.next_kind())
    if not numbers.seldom(5):
        making.put_line(900)
    return making.text[:-1] if numbers.seldom(5) else making.text
