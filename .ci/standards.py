"""The standards that say what is where in a module's memory: by the variants of `Field` in the code, in their order, as the comment at the
enumeration of each standard's fields has them; and the file of each one's fields."""
import re
from functions import ROOT, read

SOURCES = f"{ROOT}/crates/field_tables/src"
FILES = {it: f"{SOURCES}/table/{it.lower()}.rt" for it in re.findall(r"^    (\w+)\(\w+Field\),$", read(f"{SOURCES}/field.rt"), re.M)}
STANDARDS = {it: re.search(r"/// A field of the memory map of ([\w-]+)\.", read(path))[1] for it, path in FILES.items()}
# how definitions cite them
DOCUMENTS = ["OIF-CMIS-05.0" if it == "CMIS" else it for it in STANDARDS.values()]
