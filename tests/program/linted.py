"""What `mvt lint` says of the evidence tiles of evidence/viewers, worked by hand from the limits; of the others it says nothing."""
FAR = "FarPoint layer 0 feature 0 position"
FOUND = {
    "zero-extent": "ZeroExtent layer 0",
    "no-geometry": "NoGeometry layer 0 feature 0",
    "unknown-without-integers": "NoGeometry layer 0 feature 0",
    "unknown-with-integers": "UnknownGeometry layer 0 feature 0",
    "unknown-with-a-point": "UnknownGeometry layer 0 feature 0",
    "right-16384-of-4096": f"{FAR} 16384 1024",
    "right-2048-of-512": f"{FAR} 2048 128",
    "right-4-of-1": f"{FAR} 4 0",
    "right-262143-of-65536": f"{FAR} 262143 16384",
    "right-131070-of-32768": f"{FAR} 131070 8192",
    "left-16385-of-4096": f"{FAR} -16385 1536",
    "left-131074-of-32768": f"{FAR} -131074 12288",
    "far-point-alone": f"{FAR} 20000 0",
    "far-line-alone": f"{FAR} 20000 0",
    "large-id": "LargeId layer 0 feature 0",
    "large-number": "LargeNumber layer 0 feature 0 attribute 0",
}
