"""What is built on the codec `mvt`: stores of tiles (`mvt_tools.stores`), and the commands `mvt-audit`, `mvt-geojson`, `mvt-page`
and `mvt-tile`. `python3 -m mvt_tools.audit` is `mvt-audit`, and so on."""

from . import _command

_command.begin()
