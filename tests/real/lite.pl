# OLE::Storage_Lite as a maker and as a reader of compound files.
#   perl lite.pl make FILE NAME DATA..    a file of streams, each with its name and the file that holds its bytes
#   perl lite.pl read FILE..              a line for each stream: file, path, SHA-256 of its bytes
# A path is the names in hexadecimal UTF-16, with / between them. A file that cannot be read has one line: file, 'error'.
use strict;
use warnings;
use Digest::SHA qw(sha256_hex);
use OLE::Storage_Lite;

sub slurp {
    my ($file) = @_;
    open(my $in, '<:raw', $file) or die "$file: $!\n";
    local $/;
    my $data = <$in>;
    return defined $data ? $data : '';
}

sub show {
    my ($file, $path, $entry) = @_;
    for my $child (@{ $entry->{Child} || [] }) {
        my @names = (@$path, unpack('H*', $child->{Name}));
        if ($child->{Type} == OLE::Storage_Lite::PpsType_File()) {
            my $data = defined $child->{Data} ? $child->{Data} : '';
            print join("\t", $file, join('/', @names), sha256_hex($data)), "\n";
        }
        show($file, \@names, $child);
    }
}

my $what = shift @ARGV;
if ($what eq 'make') {
    my $file = shift @ARGV;
    my @streams;
    while (my ($name, $data) = splice(@ARGV, 0, 2)) {
        push @streams, OLE::Storage_Lite::PPS::File->new(OLE::Storage_Lite::Asc2Ucs($name), slurp($data));
    }
    OLE::Storage_Lite::PPS::Root->new(undef, undef, \@streams)->save($file) or die "$file cannot be made\n";
} else {
    for my $file (@ARGV) {
        my $tree = eval { OLE::Storage_Lite->new($file)->getPpsTree(1) };
        if ($tree) { show($file, [], $tree) }
        else       { print "$file\terror\n" }
    }
}
