# each line of stdin is a query in hexadecimal; its answer has the names and the texts that CGI.pm reads
use strict;
use warnings;
use CGI;

sub hex_of { my $text = shift; utf8::encode($text) if utf8::is_utf8($text); return unpack('H*', $text); }

while (my $line = <STDIN>) {
    chomp $line;
    my $read = CGI->new(pack('H*', $line));
    my @pairs;
    for my $name ($read->multi_param) {
        push @pairs, map { hex_of($name) . '=' . hex_of($_ // '') } $read->multi_param($name);
    }
    print join(' ', @pairs), "\n";
}
