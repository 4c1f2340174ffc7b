# each line of stdin is a query in hexadecimal; its answer has the names and the texts that Mojolicious reads
use strict;
use warnings;
use Mojo::Parameters;

sub hex_of { my $text = shift; utf8::encode($text) if utf8::is_utf8($text); return unpack('H*', $text); }

while (my $line = <STDIN>) {
    chomp $line;
    my @read = @{Mojo::Parameters->new(pack('H*', $line))->pairs};
    my @pairs;
    while (my ($name, $value) = splice(@read, 0, 2)) {
        push @pairs, hex_of($name) . '=' . hex_of($value // '');
    }
    print join(' ', @pairs), "\n";
}
