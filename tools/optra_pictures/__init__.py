"""What `tools/diagram` and `tools/report` share: reading tables and plans, the railway's rules, pictures and pages.

Plain Python beside the proved program, the standard library alone. Nothing here is proved: the rules are written anew from
docs/MODEL.md, and `bench/compare_reports.py` holds them against the program and against `bench/plain.py`.
"""
