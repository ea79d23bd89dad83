# A comment, which the canonical text doesn't keep.
fn area ( width,height )
{ return ((width)*height) ; }
main{ let a=area(03,4);
  if (a>10) { print "large: " , a ; } else { }
  for i in 0 .. 2{print (1-(2-i)),-(i),!(i==1);}
  finish{async{}} }
