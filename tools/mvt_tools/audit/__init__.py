"""Audits whole stores of tiles: folder trees, MBTiles files and lists of files.

    $ mvt-audit world.mbtiles --into audit

judges every tile with the proved library, on several processes or machines, and makes `audit/audit.sqlite` and
`audit/report.html`. `docs/AUDIT.md` of the project has the tables.
"""
