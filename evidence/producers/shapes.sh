# Read by the scripts beside it: where the GSHHS shorelines lie, of crude resolution, and the lakes, of low resolution.
shapes=$(dirname "$(dirname "$(dpkg -L python-cartopy-data | grep GSHHS_c_L1.shp)")")
coast=$shapes/c/GSHHS_c_L1
lakes=$shapes/l/GSHHS_l_L2
