"""Parts of files: the lines of records, and files made of them."""

HEADER = "100,NEM12,202401030000,MDP1,RETAILER\n"
PERIOD_HEADER = "100,NEM13,200401011234,MDP1,RETAILER\n"
END = "900\n"


def block(nmi="NEM1201009", configuration="E1", register="1", suffix="E1", datastream="N1", meter="01009", unit="kWh", length="30",
          read=""):
    """A 200 record."""
    return f"200,{nmi},{configuration},{register},{suffix},{datastream},{meter},{unit},{length},{read}\n"


def record_300(date, values, *after):
    """A 300 record: its date, its values, and the fields after them. A text with commas counts as several fields."""
    return ",".join(["300", date, *values, *after]) + "\n"


def day(date="20240101", values=48 * ["1"], quality="A", code="", text="", update="20240102010203"):
    """A 300 record with an update and without a load time."""
    return record_300(date, values, quality, code, text, update, "")


def file_of(*records, header=HEADER):
    return header + "".join(records) + END


def period(changed={}):
    """A 250 record. `changed` has other fields, by their numbers."""
    fields = ["250", "1234567890", "1141", "01", "11", "11", "METSER66", "E", "000021.2", "20031001103230", "A", "", "",
              "000534.5", "20040201100030", "E64", "77", "", "343.5", "kWh", "20040509", "20040202125010", "20040203000130"]
    return ",".join(changed.get(number, field) for number, field in enumerate(fields, 1)) + "\n"
