"""What `runs.py` is tried on: reports, what is left by going back from assertions, what is told of threads, what would
be wrong of these, and runs whose end is known. Written by hand."""

HEAD = 'analysis box parts 1 delay 1 narrow 1 limited no\nflagged 0\n'
FITS = HEAD.replace('limited no', 'limited no fits yes')

# Each with a name, a program, its report, and what in the report becomes something else, which is then wrong.
REPORTS = [
    ('a loop', 'int main(void){ long x=0; while(x<3) x=x+1; assert(x==3); }',
     HEAD + 'point 1 main 1:22\n  row true\npoint 2 main 1:27\n  row x >= 0\n  row x <= 3\n'
     'point 3 main 1:38\n  row x >= 0\n  row x <= 2\npoint 4 main 1:45\n  row x = 3\n'
     'point 5 main 1:59\n  row x = 3\nassert 4 main 1:45 proved\nverdicts proved 1 unknown 0\n', [
         ('  row x <= 3\n', '  row x <= 2\n'),
         ('  row x <= 2\n', '  row x <= 1\n'),
         ('  row x >= 0\n  row x <= 2', '  row x >= 1\n  row x <= 2'),
         ('point 4 main 1:45\n  row x = 3', 'point 4 main 1:45\n  row x = 4'),
         ('1:59\n  row x = 3', '1:59\n  unreachable'),
         ('1:59\n  row x = 3', '1:59\n  row y = 3'),
         ('1:59\n  row x = 3', '1:60\n  row x = 3'),
         ('1:59\n  row x = 3', '1:59\n  row 2*x = 3'),
         ('  row true', '  unreachable')]),
    ('relations', 'int main(void){ long x=input(), y=x; assume(y<9); y=y+1; }',
     HEAD.replace('box', 'oct') + 'point 1 main 1:22\n  row true\npoint 2 main 1:33\n  row true\n'
     'point 3 main 1:38\n  row x - y = 0\npoint 4 main 1:51\n  row x - y = 0\n  row x <= 8\n  row y <= 8\n'
     'point 5 main 1:58\n  row x - y = -1\n  row x <= 8\n  row y <= 9\nverdicts proved 0 unknown 0\n', [
         ('3 main 1:38\n  row x - y = 0', '3 main 1:38\n  row x + y = 0'),
         ('row x - y = -1', 'row x - y = 1'),
         ('row x - y = -1', 'row x - y >= 0'),
         ('row y <= 8', 'row y <= 5'),
         ('  row y <= 8', '  row y >= 8')]),
    ('an assertion', 'int main(void){ long x=input(); assert(x!=0); }',
     HEAD + 'point 1 main 1:22\n  row true\npoint 2 main 1:33\n  row true\npoint 3 main 1:47\n  row true\n'
     'assert 2 main 1:33 unknown\nverdicts proved 0 unknown 1\n', [
         ('unknown\nv', 'proved\nv'),
         ('assert 2 main 1:33 unknown\n', ''),
         ('assert 2 main', 'assert 3 main')]),
    ('what fits', 'int main(void){ int x=2147483647; if(input()) x=x+1; }',
     FITS + 'point 1 main 1:21\n  row true\npoint 2 main 1:35\n  row x = 2147483647\n'
     'point 3 main 1:47\n  row x = 2147483647\npoint 4 main 1:54\n  row x = 2147483647\n'
     'fit 3 main 1:47 may overflow\nverdicts proved 0 unknown 0\n', [
         ('may overflow', 'fits'),
         ('fit 3 main 1:47 may overflow\n', ''),
         ('1:54\n  row x = 2147483647', '1:54\n  row x = 2147483646')]),
    ('accesses', 'int main(void){ long a[2], i; for(i=0;i<3;i=i+1) a[i]=i; }',
     HEAD + 'point 1 main 1:22\n  row true\npoint 2 main 1:28\n  row true\n'
     'point 3 main 1:31\n  row i >= 0\n  row i <= 3\npoint 4 main 1:35\n  row true\n'
     'point 5 main 1:43\n  row i >= 0\n  row i <= 2\npoint 6 main 1:50\n  row i >= 0\n  row i <= 2\n'
     'point 7 main 1:58\n  row i = 3\naccess 6 main 1:50 unknown\nverdicts proved 0 unknown 1\n', [
         ('unknown\nv', 'in bounds\nv'),
         ('1:50 unknown', '1:52 unknown'),
         ('access 6', 'access 5'),
         ('access 6 main 1:50 unknown\n', ''),
         ('6 main 1:50\n  row i >= 0\n  row i <= 2', '6 main 1:50\n  row i >= 0\n  row i <= 1')]),
    ('parts', 'int main(void){ long x=0; if(input()) x=5; }',
     HEAD.replace('parts 1', 'parts 2') + 'point 1 main 1:22\n  row true\npoint 2 main 1:27\n  row x = 0\n'
     'point 3 main 1:39\n  row x = 0\npoint 4 main 1:44\n  row x = 5\n  or\n  row x = 0\n'
     'verdicts proved 0 unknown 0\n', [
         ('  or\n  row x = 0\n', ''),
         ('  row x = 5\n  or\n', ''),
         ('  or\n', ''),
         ('row x = 5', 'row x = 4')]),
    ('calls', 'long inc(long x){ x=x+1; return x; } int main(void){ long x=inc(1); x=inc(x); assert(x==3); }',
     HEAD + 'point 1 main 1:59\n  row true\npoint 2 main/inc@1:61 1:19\n  row x = 1\n'
     'point 3 main/inc@1:61 1:26\n  row x = 2\npoint 4 main/inc@1:61 1:36\n  unreachable\n'
     'point 5 main 1:69\n  row x = 2\npoint 6 main/inc@1:71 1:19\n  row x~1 = 2\n  row x = 2\n'
     'point 7 main/inc@1:71 1:26\n  row x~1 = 2\n  row x = 3\npoint 8 main/inc@1:71 1:36\n  unreachable\n'
     'point 9 main 1:79\n  row x = 3\npoint 10 main 1:93\n  row x = 3\nassert 9 main 1:79 proved\n'
     'verdicts proved 1 unknown 0\n', [
         ('point 2 main/inc@1:61 1:19\n  row x = 1', 'point 2 main/inc@1:61 1:19\n  row x~1 = 1'),
         ('  row x~1 = 2\n  row x = 3', '  row x~1 = 3\n  row x = 2'),
         ('7 main/inc@1:71', '7 main/inc@1:61'),
         ('5 main 1:69\n  row x = 2', '5 main 1:69\n  row x = 1')]),
    ('what hides', 'int main(void){ long x=1; { long x=2; x=x+1; } { int x[1]; x[0]=7; } }',
     HEAD + 'point 1 main 1:22\n  row true\npoint 2 main 1:34\n  row x = 1\n'
     'point 3 main 1:39\n  row x~1 = 1\n  row x = 2\npoint 4 main 1:46\n  row x~1 = 1\n  row x = 3\n'
     'point 5 main 1:54\n  row x = 1\npoint 6 main 1:60\n  row x = 1\npoint 7 main 1:68\n  row x = 1\n'
     'point 8 main 1:70\n  row x = 1\naccess 6 main 1:60 in bounds\nverdicts proved 1 unknown 0\n', [
         ('  row x~1 = 1\n  row x = 3', '  row x~1 = 3\n  row x = 1'),
         ('6 main 1:60\n  row x = 1', '6 main 1:60\n  row x~1 = 1'),
         ('7 main 1:68\n  row x = 1', '7 main 1:68\n  row x = 7'),
         ('1:46', '1:45')]),
]

# Each with a name, a program of which some runs fail, all of them at the assertion of this number, what is left by going
# back from it, and what in that becomes something else, which is then wrong.
BACKS = [
    ('one value', 'int main(void){ long x=input(), y; y=x+1; assert(y!=0); }', 4,
     'back point 4\nflagged 0\npoint 1 main 1:22\n  row true\n  gen point\n'
     'point 2 main 1:33\n  row x = -1\n  gen point x=-1\n'
     'point 3 main 1:36\n  row x = -1\n  gen point x=-1 y=0\n  gen line x=0 y=1\n'
     'point 4 main 1:43\n  row x = -1\n  row y = 0\n  gen point x=-1 y=0\npoint 5 main 1:57\n  unreachable\n'
     'assert 4 unknown\n', [
         ('  row true\n  gen point\n', '  unreachable\n'),
         ('2 main 1:33\n  row x = -1', '2 main 1:33\n  row x = -2'),
         ('2 main 1:33\n  row x = -1', '2 main 1:33\n  unreachable'),
         ('3 main 1:36\n  row x = -1', '3 main 1:36\n  row y = 0'),
         ('3 main 1:36\n  row x = -1', '3 main 1:36\n  row z = 0'),
         ('  row y = 0\n', '  row y >= 1\n'),
         ('  row y = 0\n', '  row 2*y = 1\n'),
         ('1:43', '1:44'),
         ('unknown', 'proved'),
         ('assert 4', 'assert 3'),
         ('back point 4', 'back point 5'),
         ('assert 4 unknown\n', '')]),
    ('a loop', 'int main(void){ long n=input(), s=0; while(s<n) s=s+3; assert(s!=6); }', 5,
     'back point 5\nflagged 0\npoint 1 main 1:22\n  row true\n  gen point\n'
     'point 2 main 1:33\n  row n <= 6\n  gen point n=6\n  gen ray n=-1\n'
     'point 3 main 1:38\n  row n <= 6\n  row s >= 0\n  row s <= 6\n'
     '  gen point n=6 s=0\n  gen point n=6 s=6\n  gen ray n=-1 s=0\n'
     'point 4 main 1:49\n  row n - s >= 1\n  row n <= 6\n  row s >= 0\n  row s <= 3\n'
     '  gen point n=1 s=0\n  gen point n=4 s=3\n  gen point n=6 s=0\n  gen point n=6 s=3\n'
     'point 5 main 1:56\n  row s = 6\n  row n <= 6\n  gen point n=6 s=6\n  gen ray n=-1 s=0\n'
     'point 6 main 1:70\n  unreachable\nassert 5 unknown\n', [
         ('2 main 1:33\n  row n <= 6', '2 main 1:33\n  row n <= 3'),
         ('  row s <= 6\n', '  row s <= 5\n'),
         ('  row s <= 3\n', '  row s <= 2\n'),
         ('  row n - s >= 1\n', '  row n - s >= 2\n'),
         ('5 main 1:56\n  row s = 6', '5 main 1:56\n  row s >= 7')]),
    ('calls', 'void f(long k){ assert(k<3); } int main(void){ long i=input(); if(i<9) f(i-1); f(0); }', 4,
     'back point 4\nflagged 0\npoint 1 main 1:53\n  row true\n  gen point\n'
     'point 2 main 1:64\n  row i >= 4\n  row i <= 8\n  gen point i=4\n  gen point i=8\n'
     'point 3 main 1:72\n  row i >= 4\n  row i <= 8\n  gen point i=4\n  gen point i=8\n'
     'point 4 main/f@1:72 1:17\n  row i - k = 1\n  row k >= 3\n  row k <= 7\n'
     '  gen point i=4 k=3\n  gen point i=8 k=7\n'
     'point 5 main/f@1:72 1:30\n  unreachable\npoint 6 main 1:80\n  unreachable\npoint 7 main/f@1:80 1:17\n  unreachable\n'
     'point 8 main/f@1:80 1:30\n  unreachable\npoint 9 main 1:86\n  unreachable\nassert 4 unknown\n', [
         ('  row i - k = 1\n', '  row i - k = -1\n'),
         ('  row k >= 3\n', '  row k >= 5\n'),
         ('point 4 main/f@1:72 1:17', 'point 4 main/f@1:71 1:17'),
         ('3 main 1:72\n  row i >= 4', '3 main 1:72\n  row i >= 7')]),
    ('what hides', 'int main(void){ long x=input(); { long x=2; x=x+1; assert(x<3); } }', 4,
     'back point 4\nflagged 0\npoint 1 main 1:22\n  row true\n  gen point\n'
     'point 2 main 1:40\n  row true\n  gen point x=0\n  gen line x=1\n'
     'point 3 main 1:45\n  row x = 2\n  gen point x~1=0 x=2\n  gen line x~1=1 x=0\n'
     'point 4 main 1:52\n  row x = 3\n  gen point x~1=0 x=3\n  gen line x~1=1 x=0\n'
     'point 5 main 1:65\n  unreachable\npoint 6 main 1:67\n  unreachable\nassert 4 unknown\n', [
         ('  row x = 2\n', '  row x~1 = 2\n'),
         ('  row x = 3\n', '  row x = 2\n')]),
    ('the beginning of a loop', 'int main(void){ for(long i=0;i<3;i=i+1) ; assert(0); }', 5,
     'back point 5\nflagged 0\npoint 1 main 1:17\n  row i >= 0\n  row i <= 3\n  gen point i=0\n  gen point i=3\n'
     'point 2 main 1:26\n  row true\n  gen point\n'
     'point 3 main 1:34\n  row i >= 0\n  row i <= 2\n  gen point i=0\n  gen point i=2\n'
     'point 4 main 1:41\n  row i >= 0\n  row i <= 2\n  gen point i=0\n  gen point i=2\n'
     'point 5 main 1:43\n  row true\n  gen point\npoint 6 main 1:54\n  unreachable\nassert 5 unknown\n', [
         ('2 main 1:26\n  row true\n  gen point', '2 main 1:26\n  unreachable'),
         ('2 main 1:26\n  row true\n  gen point', '2 main 1:26\n  row i >= 0'),
         ('  row i <= 3\n', '  row i <= 2\n'),
         ('4 main 1:41\n  row i >= 0', '4 main 1:41\n  row i >= 1'),
         ('unknown', 'proved')]),
]

# Each with a name, a program of several threads, what is told of it, and what in that becomes something else, which is
# then wrong.
BESIDE = 'threads box count 2 delay 1 narrow 1\nflagged 0\n'
THREADS = [
    ('a global that is read',
     'long g; void t1(void){ g=1; g=2; } void t2(void){ long x; x=g; assert(x<=2); assert(x!=2); }',
     BESIDE + 'point 1 t1 1:24\n  row g = 0\npoint 2 t1 1:29\n  row g = 1\npoint 3 t1 1:34\n  row g = 2\n'
     'point 4 t2 1:56\n  row g >= 0\n  row g <= 2\npoint 5 t2 1:59\n  row g >= 0\n  row g <= 2\n'
     'point 6 t2 1:64\n  row g >= 0\n  row g <= 2\n  row x >= 0\n  row x <= 2\n'
     'point 7 t2 1:78\n  row g >= 0\n  row g <= 2\n  row x >= 0\n  row x <= 2\n'
     'point 8 t2 1:92\n  row g >= 0\n  row g <= 2\n  row x >= 0\n  row x <= 1\n'
     'assert 6 t2 1:64 proved\nassert 7 t2 1:78 unknown\nwrites t1 g 1 2\nverdicts proved 1 unknown 1\n', [
         ('1:29\n  row g = 1', '1:29\n  row g = 2'),
         ('1:56\n  row g >= 0\n  row g <= 2', '1:56\n  row g = 0'),
         ('1:56\n  row g >= 0\n  row g <= 2', '1:56\n  row g >= 0\n  row g <= 1'),
         ('1:78\n  row g >= 0\n  row g <= 2\n', '1:78\n  row g >= 1\n  row g <= 2\n'),
         ('1:78 unknown', '1:78 proved'),
         ('assert 7 t2', 'assert 7 t1'),
         ('point 8 t2', 'point 8 t1'),
         ('1:92\n  row g >= 0\n  row g <= 2\n  row x >= 0\n  row x <= 1\n', '1:92\n  unreachable\n'),
         ('writes t1 g 1 2\n', ''),
         ('writes t1 g 1 2', 'writes t2 g 1 2'),
         ('writes t1 g 1 2', 'writes t1 g 2 2'),
         ('writes t1 g 1 2', 'writes t1 g 1 1'),
         ('writes t1 g 1 2', 'writes t1 g none 1')]),
    ('a test and a use', 'long a[2], g; void t1(void){ g=1; g=7; } void t2(void){ if(g==1) a[g]=0; }',
     BESIDE + 'point 1 t1 1:30\n  row g = 0\npoint 2 t1 1:35\n  row g = 1\npoint 3 t1 1:40\n  row g = 7\n'
     'point 4 t2 1:57\n  row g >= 0\n  row g <= 7\npoint 5 t2 1:66\n  row g >= 1\n  row g <= 7\n'
     'point 6 t2 1:74\n  row g >= 0\n  row g <= 7\naccess 5 t2 1:66 unknown\nwrites t1 g 1 7\n'
     'verdicts proved 0 unknown 1\n', [
         ('1:66\n  row g >= 1\n  row g <= 7', '1:66\n  row g = 1'),
         ('1:66 unknown', '1:66 in bounds'),
         ('access 5 t2 1:66 unknown\n', '')]),
    ('calls', 'long g; long f(void){ return g+1; } void t1(void){ g=f(); } void t2(void){ g=5; g=f(); }',
     BESIDE + 'point 1 t1 1:52\n  row g >= 0\npoint 2 t1/f@1:54 1:23\n  row g >= 0\n'
     'point 3 t1/f@1:54 1:35\n  unreachable\npoint 4 t1 1:59\n  row g >= 1\n'
     'point 5 t2 1:76\n  row g >= 0\npoint 6 t2 1:81\n  row g >= 1\npoint 7 t2/f@1:83 1:23\n  row g >= 1\n'
     'point 8 t2/f@1:83 1:35\n  unreachable\npoint 9 t2 1:88\n  row g >= 1\n'
     'writes t1 g 1 none\nwrites t2 g 2 none\nverdicts proved 0 unknown 0\n', [
         ('t1/f@1:54 1:23\n  row g >= 0', 't1/f@1:54 1:23\n  row g >= 0\n  row g <= 5'),
         ('t2/f@1:83 1:23\n  row g >= 1', 't2/f@1:83 1:23\n  row g >= 6'),
         ('writes t1 g 1 none', 'writes t1 g 1 6'),
         ('writes t2 g 2 none', 'writes t2 g 6 none'),
         ('writes t2 g 2 none', 'writes t2 g 2 5')]),
]

# Programs of whose runs each ends so; where all assertions hold, at their last statement.
ENDS = [
    ('int main(void){ assert(-7/2==-3 && -7%2==-1 && 7/-2==-3 && 7%-2==1); }', 'end'),
    ('int main(void){ long a=input(); assume(a>5 && a<-5); }', 'assumption'),
    ('int main(void){ assert(1); assert(2<1); }', 'assertion'),
    ('int main(void){ assert(65536L*65536==4294967296); assert(65536*65536>0); }', 'number'),
    ('int main(void){ long c=1; int a=2147483647, b=1; assert(a+c==2147483648); c=a+b+c; }', 'number'),
    ('int main(void){ int x=2147483647; x++; }', 'number'),
    ('int main(void){ long x=-9223372036854775807-1; assert(x%2==0); x=x%-1; }', 'number'),
    ('int main(void){ long x=-9223372036854775807-1; x=-x; }', 'number'),
    ('int main(void){ int x=0; if(x!=0 && 1/x>0 || x==0) x=1; assert(x==1); x=1/(x-1); }', 'number'),
    ('int main(void){ int x=2147483648; }', 'number'),
    ('int half(long x){ return x/2; } int main(void){ long y=half(6); assert(y==3); y=half(4294967296); }', 'number'),
    ('void f(int a, int b){} int main(void){ f(1, 2); f(2147483648, 1/0); }', 'number'),
    ('long k; long f(void){ k=k+1; return k; } int g(void){ return f(); } '
     'int main(void){ long x=g(); x=g(); assert(x==2); }', 'end'),
    ('int main(void){ long a[3], i; for(i=0; i<3; i++) a[i]=7+i; assert(a[a[0]-6]==8); i=a[3]; }', 'index'),
    ('int main(void){ long a[1]; a[-1]=1/0; }', 'index'),
    ('int main(void){ long a[1]; a[0-1]=1; }', 'index'),
    ('int main(void){ int a[2]; a[1]=3; a[0]=a[1]; assert(a[0]==3); a[1]=2147483648; }', 'number'),
    ('long i; long a[2]; long f(void){ i=1; return 5; } '
     'int main(void){ a[i]=f(); assert(a[0]==5 && a[1]==0 && i==1); }', 'end'),
    ('int a[2]; int main(void){ long x=1; { long x[2]; x[0]=4; } assert(x==1 && a[0]==0 && a[1]==0); }', 'end'),
    ('int main(void){ long x=1, y=0; switch(x){ case 1: y=1; case 2: y=y+2; break; default: y=9; } assert(y==3); '
     'switch(7){ case 1: y=0; default: y=5; case 2: y=y+1; } assert(y==6); switch(y){ case 9: y=1; } assert(y==6); }',
     'end'),
    ('int main(void){ long s=0; for(int i=0; i<9; i++){ if(i%2) continue; switch(i){ case 6: break; default: s+=i; } '
     'if(i==8) break; } assert(s==14); }', 'end'),
    ('int g=3; int main(void){ while(1){ { long x=g; if(x==0) return 0; } --g; } assert(0); }', 'end'),
    ('int f(void){ } int main(void){ int x=1; f(); assert(x==1); x=f(); assume(x==7); assert(x==7); }', 'assumption'),
    ('int main(void){ return 2147483648; }', 'number'),
    ('int main(void){ assert(0x1F==31 && 017==15 && 10ll==10 && !(1<1) && (2)); }', 'end'),
    ('int main(void){ while(1) ; }', 'cut'),
]
