 .entry go ; der Anfang
 .data 0 ; Zähler für Jürgen
go: QUIT ; 終わり
