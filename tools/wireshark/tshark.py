"""Frames in a capture, and what tshark reads in it. A reader, ethercat or canopen, says how a frame is put on its wire, and which
fields are read there."""
import os
import re
import struct
import subprocess
import sys
import xml.etree.ElementTree as xml

# Expert notes and malformed packets, in any protocol's layer.
MARK = re.compile(r"_ws\.(malformed|expert)|(.*\.)?invalid$")


def write_pcap(path, link, wires):
    with open(path, "wb") as pcap:
        pcap.write(struct.pack("<IHHiIII", 0xa1b2c3d4, 2, 4, 0, 0, 65535, link))
        for number, wire in enumerate(wires):
            pcap.write(struct.pack("<IIII", number // 1000, number % 1000 * 1000, len(wire), len(wire)) + wire)


def reading(reader, packet, wire):
    """What tshark reads in the reader's layer, by its FIELDS; under "mark" what it has to say against the frame."""
    layer = packet.find(f".//proto[@name='{reader.LAYER}']")
    if layer is None:
        return {"mark": f"no {reader.LAYER}"}
    read = {"mark": "malformed"} if any(MARK.match(part.get("name") or "") for part in packet.iter()) else {}
    for field in layer.iter("field"):
        name = field.get("name").removeprefix(f"{reader.LAYER}.")
        if reader.FIELDS.get(name) == "data":
            read["data"] = bytes_of(field, wire)
        elif name in reader.FIELDS:
            read[reader.FIELDS[name]] = int(field.get("show"), 0)
            if name in reader.WORDED:
                read[reader.WORDED[name]] = words_of(field)
        elif name and name not in reader.HOLDERS and not MARK.match(name):
            read[f"{name}, a field of Wireshark's that {reader.__name__}.py does not list"] = field.get("show")
    return read


def bytes_of(field, wire):
    """The bytes that the field stands for, or None where there are none."""
    at, size = int(field.get("pos")), int(field.get("size"))
    return wire[at:at + size] or None


def words_of(field):
    """The words between the field's name and its number, or None where Wireshark has none for this number."""
    words = re.fullmatch(r"[^:]*: (.*) \(0x[0-9a-f]+\)", field.get("showname")).group(1)
    return None if words == "Unknown" else words


def dissect(reader, wires, work):
    """tshark's reading of each frame, with its own settings and none of the user's."""
    work.mkdir(parents=True, exist_ok=True)
    write_pcap(work / "frames.pcap", reader.LINK, wires)
    settings = {**os.environ, "WIRESHARK_CONFIG_DIR": str(work / "settings")}
    with open(work / "frames.pdml", "wb") as pdml, open(work / "tshark.log", "wb") as log:
        command = ["tshark", "-n", "-r", work / "frames.pcap", *reader.OPTIONS, "-T", "pdml"]
        status = subprocess.run(command, env=settings, stdout=pdml, stderr=log).returncode
    if status:
        sys.exit(f"tools/wireshark: tshark ended with status {status}: target/wireshark/tshark.log says why")
    readings = []
    for _, element in xml.iterparse(work / "frames.pdml"):
        if element.tag == "packet":
            readings.append(reading(reader, element, wires[len(readings)]))
            element.clear()
    if len(readings) != len(wires):
        sys.exit(f"tools/wireshark: tshark read {len(readings)} of {len(wires)} frames: target/wireshark has all that it said")
    return readings
