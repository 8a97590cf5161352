c Two corners of the diamond.
p aux sp ss 2
s 1
s 4
