"""From a folder of XML to a folder of pages, by Python's standard library alone. `command` is where to begin reading."""
