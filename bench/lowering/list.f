// the files of the case lists
+incdir+inc
+define+STEP=3
list_below.v   # the counter
/* the top */ lists.v
