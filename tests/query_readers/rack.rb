# each line of stdin is a query in hexadecimal; its answer has the names and the texts that Rack reads
require 'rack/utils'

STDIN.each_line do |line|
  begin
    read = Rack::Utils.parse_nested_query([line.strip].pack('H*'))
  rescue StandardError
    read = {}
  end
  texts = read.select { |_, value| value.is_a?(String) }
  puts(texts.map { |name, value| "#{name.unpack1('H*')}=#{value.unpack1('H*')}" }.join(' '))
end
