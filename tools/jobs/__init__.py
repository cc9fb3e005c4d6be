"""The parts of tools/job: colours, jobs as bytes, settings, text grids, PPM pictures, files becoming jobs, shades."""
