<?php // each line of stdin is a query in hexadecimal; its answer has the names and the texts that PHP reads
while (($line = fgets(STDIN)) !== false) {
    parse_str(hex2bin(trim($line)), $read);
    $pairs = [];
    foreach ($read as $name => $value) {
        if (is_string($value)) {
            $pairs[] = bin2hex((string) $name) . '=' . bin2hex($value);
        }
    }
    echo implode(' ', $pairs), "\n";
}
