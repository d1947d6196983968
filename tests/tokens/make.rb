#!/usr/bin/env ruby
# frozen_string_literal: true

# Makes the tokens of this folder, each signed by new keys, with ruby-cose: see README.md.
#
#     tests/tokens/make.rb FOLDER      writes keys (.pem, .json) and tokens (.cbor)

require "base64"
require "cose"
require "json"
require "openssl"

OUT = ARGV.fetch(0)
# Algorithms of COSE (RFC 9053): number, curve in OpenSSL, digest, bytes of a coordinate.
ALGORITHMS = { es256: [-7, "prime256v1", "SHA256", 32], es384: [-35, "secp384r1", "SHA384", 48],
               es512: [-36, "secp521r1", "SHA512", 66], eddsa: [-8, nil, nil, 32] }.freeze
RIM = ["62452cb1ca21e7b18281b3a54e68e5b498683d54972d7471d0c9b5ed6fa0ac82"].pack("H*")
NONCE = (1..64).to_a.pack("C*")
PLATFORM_PROFILE = "tag:arm.com,2023:cca_platform#1.0.0"
REALM_PROFILE = "tag:arm.com,2023:realm#1.0.0"

# A COSE_Sign1 whose protected header may be any bytes.
class Sign1 < COSE::Sign1
  attr_writer :protected_bytes

  def to_sign = verification_data

  def serialized_map(map) = @protected_bytes || super

  def to_array(signature) = [serialized_map(protected_headers), unprotected_headers, payload, signature]
end

def new_key(name)
  curve = ALGORITHMS.fetch(name)[1]
  curve ? OpenSSL::PKey::EC.generate(curve) : OpenSSL::PKey.generate_key("ED25519")
end

def point(key) = key.public_key.to_bn.to_s(2)

def cose_key(key)
  return COSE::Key.from_pkey(OpenSSL::PKey::EC.new(key.public_to_der)).serialize if key.is_a?(OpenSSL::PKey::EC)

  COSE::Key::OKP.new(crv: 6, x: key.public_to_der[-32..]).serialize
end

# A signature as COSE has it: r and s of ECDSA, each as long as the curve's numbers.
def signature(key, digest, size, data)
  return key.sign(nil, data) unless digest

  OpenSSL::ASN1.decode(key.sign(digest, data)).value.map { |each| each.value.to_s(2).rjust(size, "\0".b) }.join
end

# A signed part. `says` is the algorithm that its header names, if that is another one; `with` signs in a way of its own.
def part(key, name, payload, says: nil, protected_headers: nil, unprotected: {}, bytes: nil, tag: true, with: nil)
  number, _, digest, size = ALGORITHMS.fetch(name)
  payload = CBOR.encode(payload) unless payload.is_a?(String)
  message = Sign1.new(protected_headers: protected_headers || { 1 => says || number }, unprotected_headers: unprotected, payload: payload, signature: "")
  message.protected_bytes = bytes if bytes
  signed = with ? with.call(message.to_sign) : signature(key, digest, size, message.to_sign)
  array = message.to_array(signed)
  CBOR.encode(tag ? CBOR::Tagged.new(18, array) : array)
end

# What is signed, in the ways in which tokens differ.
Kit = Struct.new(:platform_name, :platform_key, :realm_name, :realm_key, :raw, keyword_init: true) do
  def realm_key_bytes = raw ? point(realm_key) : cose_key(realm_key)

  def platform_claims(**changes)
    component = { 1 => "BL", 2 => "\x11".b * 32, 4 => "1.2.3", 5 => "\x22".b * 32, 6 => "sha-256" }
    { 265 => PLATFORM_PROFILE, 10 => OpenSSL::Digest.digest(changes.delete(:hash) || "SHA256", realm_key_bytes), 2396 => "\x7f".b * 32,
      256 => "\x01".b + "\x33".b * 32, 2401 => "\xcf".b * 4, 2395 => 0x3000, 2400 => "https://verifier.example", 2402 => "sha-256",
      2399 => [component, component.merge(1 => "RMM", 2 => "\x44".b * 32)] }.merge(changes[:set] || {}).compact
  end

  def realm_claims(**set)
    { 265 => REALM_PROFILE, 10 => NONCE, 44235 => "\0".b * 64, 44236 => "sha-256", 44237 => realm_key_bytes, 44238 => RIM,
      44239 => ["\0".b * 32] * 4, 44240 => "sha-256" }.merge(set.transform_keys { |name| name.to_s.delete("c").to_i }).compact
  end

  def platform(claims = platform_claims, **how) = part(platform_key, platform_name, claims, **how)

  def realm(claims = realm_claims, **how) = part(realm_key, realm_name, claims, **how)
end

def kit(platform, realm = platform, raw: false)
  Kit.new(platform_name: platform, platform_key: new_key(platform), realm_name: realm, realm_key: new_key(realm), raw: raw)
end

def write(name, data) = File.binwrite(File.join(OUT, name), data)

def whole(platform, realm, tag: true, more: {})
  map = { 44234 => platform, 44241 => realm }.merge(more)
  CBOR.encode(tag ? CBOR::Tagged.new(399, map) : map)
end

def token(name, *parts, **how) = write("#{name}.cbor", whole(*parts, **how))

# A map of CBOR that has one more pair, whatever its keys are: an encoder of maps has no key twice.
def with_pair(map, key, value)
  encoded = CBOR.encode(map)
  raise "a map of 23 pairs or more" unless map.size < 22

  (encoded.getbyte(0) + 1).chr.b + encoded[1..] + CBOR.encode(key) + CBOR.encode(value)
end

def jwk(key, curve, size)
  pad = ->(data) { Base64.urlsafe_encode64(data, padding: false) }
  return { kty: "OKP", crv: curve, x: pad.(key.public_to_der[-32..]) } unless key.is_a?(OpenSSL::PKey::EC)

  { kty: "EC", crv: curve, x: pad.(point(key)[1, size]), y: pad.(point(key)[1 + size, size]) }
end

# ---- valid tokens

main = kit(:es384)
write("nonce", "#{NONCE.unpack1("H*")}\n")
write("platform.pem", main.platform_key.public_to_pem)
token("kernel", main.platform, main.realm)
token("bare", main.platform, main.realm, tag: false)
token("headers", main.platform(protected_headers: { 1 => -35, 3 => 263 }, unprotected: { 4 => "key".b }), main.realm(unprotected: { 4 => "other".b }))
token("no-rim", main.platform, main.realm(main.realm_claims(c44238: "\x5a".b * 32)))
token("rpv", main.platform, main.realm(main.realm_claims(c44235: "\xab".b * 64)))

compressed = CBOR.encode({ 1 => 2, -1 => 2, -2 => point(main.realm_key)[1, 48], -3 => point(main.realm_key).getbyte(-1).odd? })
token("compressed", main.platform(main.platform_claims(set: { 10 => OpenSSL::Digest.digest("SHA256", compressed) })),
      main.realm(main.realm_claims(c44237: compressed)))

others = { es256: ["P-256", kit(:es256)], es512: ["P-521", kit(:es512)], eddsa: ["Ed25519", kit(:eddsa)], raw: ["P-384", kit(:es384, raw: true)] }
others.each { |name, (_, each)| write("#{name}.pem", each.platform_key.public_to_pem) }
keys = others.map { |name, (curve, each)| jwk(each.platform_key, curve, ALGORITHMS[name == :raw ? :es384 : name][3]) }
write("keys.json", JSON.generate({ keys: keys }) + "\n")
write("key.json", JSON.generate(keys[0]) + "\n")

es256, es512, eddsa, raw = others.values.map(&:last)
token("es256", es256.platform, es256.realm, tag: false)
long = { c44236: "sha-512", c44238: (0..63).to_a.pack("C*"), c44239: ["\0".b * 64] * 4, c44240: "sha-512" }
token("es512", es512.platform(es512.platform_claims(hash: "SHA512")), es512.realm(es512.realm_claims(**long)))
token("eddsa", eddsa.platform, eddsa.realm)
older = raw.platform_claims(set: { 265 => "http://arm.com/CCA-SSD/1.0.0" })
token("raw", raw.platform(older, tag: false), raw.realm(raw.realm_claims(c265: nil), tag: false))
mixed = Kit.new(**main.to_h, realm_name: :es256, realm_key: es256.realm_key)
token("mixed", mixed.platform, mixed.realm)

# ---- tokens that are not valid, signed as well as they can be

WRONG = {}

def wrong(name, *parts, **how) = WRONG[name] = whole(*parts, **how)

other = Kit.new(**main.to_h, realm_key: new_key(:es384))
wrong("realm-of-another", main.platform, other.realm)
wrong("challenge-of-another", other.platform, main.realm)
wrong("swapped", main.realm, main.platform)
wrong("realm-by-attestation-key", main.platform, part(main.platform_key, :es384, main.realm_claims))
wrong("platform-by-realm", part(main.realm_key, :es384, main.platform_claims), main.realm)

short = ->(data) { signature(main.platform_key, "SHA256", 48, data) }
short_realm = ->(data) { signature(main.realm_key, "SHA256", 48, data) }
hmac = ->(key) { ->(data) { OpenSSL::HMAC.digest("SHA256", key, data) } }
wrong("es256-over-p384", main.platform(says: -7, with: short), main.realm)
wrong("es256-over-p384-realm", main.platform, main.realm(says: -7, with: short_realm))
wrong("none", main.platform(says: 0, with: ->(_) { "".b }), main.realm)
wrong("none-realm", main.platform, main.realm(says: 0, with: ->(_) { "".b }))
wrong("hmac", main.platform(says: 5, with: hmac.call(main.platform_key.public_to_pem)), main.realm)
wrong("hmac-realm", main.platform, main.realm(says: 5, with: hmac.call(main.realm_key_bytes)))
wrong("signature-in-der", main.platform(with: ->(data) { main.platform_key.sign("SHA384", data) }), main.realm)
wrong("signature-padded", main.platform(with: ->(data) { signature(main.platform_key, "SHA384", 48, data).insert(48, "\0".b) }), main.realm)
wrong("algorithm-unprotected", main.platform(bytes: "".b, unprotected: { 1 => -35 }), main.realm)
wrong("two-algorithms", main.platform(unprotected: { 1 => -7 }), main.realm)
wrong("algorithm-twice", main.platform, main.realm(unprotected: { 1 => -35 }))
wrong("two-kids", main.platform(protected_headers: { 1 => -35, 4 => "a".b }, unprotected: { 4 => "b".b }), main.realm)
wrong("critical-header", main.platform(protected_headers: { 1 => -35, 2 => [99], 99 => 1 }), main.realm)
wrong("header-twice", main.platform(bytes: with_pair({ 1 => -35 }, 1, -35)), main.realm)
wrong("algorithm-as-text", main.platform(says: "ES384"), main.realm)

claims = main.realm_claims
wrong("rim-twice", main.platform, main.realm(with_pair(main.realm_claims(c44238: "\x5a".b * 32), 44238, RIM)))
wrong("key-twice", main.platform, main.realm(with_pair(claims, 44237, cose_key(other.realm_key))))
wrong("challenge-twice", main.platform(with_pair(main.platform_claims, 10, "\0".b * 32)), main.realm)
wrong("trailing-claims", main.platform, main.realm(CBOR.encode(claims) + "\0".b))
wrong("trailing-part", main.platform, main.realm + "\0".b)
wrong("outer-rim", main.platform, main.realm, more: { 44238 => RIM })
wrong("outer-member", main.platform, main.realm, more: { 1 => 2 })
WRONG["outer-twice"] = "\xd9\x01\x8f".b + with_pair({ 44234 => main.platform, 44241 => other.realm }, 44241, main.realm)
wrong("platform-profile", main.platform(main.platform_claims(set: { 265 => "tag:arm.com,2023:cca_platform#9.0.0" })), main.realm)
wrong("platform-profile-missing", main.platform(main.platform_claims(set: { 265 => nil })), main.realm)
wrong("realm-profile", main.platform, main.realm(main.realm_claims(c265: PLATFORM_PROFILE)))
point_kit = Kit.new(**main.to_h, raw: true)
wrong("realm-profile-of-point", point_kit.platform, point_kit.realm(point_kit.realm_claims(c265: PLATFORM_PROFILE)))
wrong("realm-profile-missing", main.platform, main.realm(main.realm_claims(c265: nil)))
wrong("key-hash-md5", main.platform(main.platform_claims(set: { 10 => OpenSSL::Digest.digest("MD5", main.realm_key_bytes) })), main.realm(main.realm_claims(c44240: "md5")))
wrong("nonce-missing", main.platform, main.realm(main.realm_claims(c10: nil)))
wrong("nonce-short", main.platform, main.realm(main.realm_claims(c10: NONCE[0, 32])))
wrong("rim-missing", main.platform, main.realm(main.realm_claims(c44238: nil)))
wrong("rim-length", main.platform, main.realm(main.realm_claims(c44236: "sha-512")))

# realm keys that are at fault
broken = cose_key(main.realm_key)
broken.setbyte(-1, broken.getbyte(-1) ^ 1)
private_half = COSE::Key.from_pkey(main.realm_key).serialize
other_algorithm = CBOR.encode(CBOR.decode(cose_key(main.realm_key)).merge(3 => -7))
shifted = CBOR.encode({ 1 => 2, -1 => 2, -2 => point(main.realm_key)[1, 47], -3 => point(main.realm_key)[48..] })
{ "key-off-curve" => broken, "key-of-another-algorithm" => other_algorithm, "key-coordinates-shifted" => shifted,
  "key-with-private-half" => private_half, "key-malformed" => "key".b }.each do |name, bytes|
  challenge = { 10 => OpenSSL::Digest.digest("SHA256", bytes) }
  wrong(name, main.platform(main.platform_claims(set: challenge)), main.realm(main.realm_claims(c44237: bytes)))
end

write("not-valid.json", JSON.pretty_generate(WRONG.transform_values { |data| Base64.strict_encode64(data) }) + "\n")

# ruby-cose verifies what it knows, which is all but EdDSA
{ platform: [main.platform, main.platform_key], realm: [main.realm, main.realm_key], es256: [es256.realm, es256.realm_key],
  es512: [es512.platform, es512.platform_key] }.each_value do |data, key|
  message = COSE::Sign1.deserialize(data)
  message.algorithm.verify(OpenSSL::PKey::EC.new(key.public_to_der), message.signature, message.send(:verification_data))
end
