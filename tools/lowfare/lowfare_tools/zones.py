"""Which zone's clocks a place has, for places that many timetables name; others are told by --zone. Of them lint knows by how
much clocks are ahead of UTC on a day, as far as the machine has the tables of zones."""
from datetime import datetime, time
from functools import cache
from zoneinfo import ZoneInfo, ZoneInfoNotFoundError

PLACES = {
    "Europe/London": "LON LHR LGW STN LTN LCY MAN EDI GLA BHX BFS NCL BRS",
    "Europe/Dublin": "DUB SNN ORK",
    "Europe/Lisbon": "LIS OPO",
    "Atlantic/Reykjavik": "KEF REK",
    "Europe/Paris": "PAR CDG ORY NCE LYS MRS",
    "Europe/Berlin": "FRA MUC BER HAM DUS STR CGN",
    "Europe/Zurich": "ZRH GVA",
    "Europe/Vienna": "VIE",
    "Europe/Amsterdam": "AMS",
    "Europe/Brussels": "BRU",
    "Europe/Madrid": "MAD BCN AGP PMI",
    "Europe/Rome": "ROM FCO MIL MXP LIN VCE NAP",
    "Europe/Copenhagen": "CPH",
    "Europe/Oslo": "OSL",
    "Europe/Stockholm": "STO ARN",
    "Europe/Helsinki": "HEL",
    "Europe/Warsaw": "WAW",
    "Europe/Prague": "PRG",
    "Europe/Budapest": "BUD",
    "Europe/Athens": "ATH",
    "Europe/Istanbul": "IST",
    "America/New_York": "NYC JFK EWR LGA BOS PHL WAS IAD DCA ATL MIA MCO CLT DTW",
    "America/Chicago": "CHI ORD DFW IAH MSP AUS",
    "America/Denver": "DEN SLC",
    "America/Phoenix": "PHX",
    "America/Los_Angeles": "LAX SFO SEA SAN LAS PDX",
    "America/Anchorage": "ANC",
    "Pacific/Honolulu": "HNL",
    "America/Toronto": "YYZ YUL YTO YMQ YOW",
    "America/Vancouver": "YVR",
    "America/Edmonton": "YYC",
    "America/Mexico_City": "MEX",
    "America/Bogota": "BOG",
    "America/Lima": "LIM",
    "America/Santiago": "SCL",
    "America/Argentina/Buenos_Aires": "BUE EZE",
    "America/Sao_Paulo": "SAO GRU GIG",
    "Asia/Dubai": "DXB AUH",
    "Asia/Qatar": "DOH",
    "Asia/Kolkata": "DEL BOM BLR",
    "Asia/Bangkok": "BKK",
    "Asia/Kuala_Lumpur": "KUL",
    "Asia/Singapore": "SIN",
    "Asia/Hong_Kong": "HKG",
    "Asia/Shanghai": "PEK PVG SHA BJS",
    "Asia/Taipei": "TPE",
    "Asia/Seoul": "SEL ICN",
    "Asia/Tokyo": "TYO NRT HND OSA KIX",
    "Africa/Johannesburg": "JNB CPT",
    "Africa/Nairobi": "NBO",
    "Africa/Addis_Ababa": "ADD",
    "Africa/Cairo": "CAI",
    "Africa/Casablanca": "CMN",
    "Australia/Sydney": "SYD MEL",
    "Australia/Brisbane": "BNE",
    "Australia/Perth": "PER",
    "Pacific/Auckland": "AKL",
}
KNOWN = {place: zone for zone, places in PLACES.items() for place in places.split()}


@cache
def zone_named(name):
    """The zone; None where this machine has no table of it."""
    try:
        return ZoneInfo(name)
    except (ZoneInfoNotFoundError, ValueError):
        return None


def offset_at(zone, day, minute):
    """By how many minutes clocks are ahead of UTC at a local time."""
    local = datetime.combine(day, time(minute // 60, minute % 60), zone)
    return int(local.utcoffset().total_seconds()) // 60
