//! Published values of SHA-256 and of SM3, each with its published digest.

use crate::algorithm;
use crate::words::read_hex;

pub struct Vector {
    /// The message: hex digits, or `count*byte`, or `"` and ASCII text.
    pub text: &'static str,
    digest: &'static str,
}

impl Vector {
    /// The byte and its count, for a message that repeats one.
    pub fn repeated(&self) -> Option<(usize, u8)> {
        let (count, byte) = self.text.split_once('*')?;
        Some((count.parse().ok()?, read_hex(byte.as_bytes())?[0]))
    }

    pub fn message(&self) -> Vec<u8> {
        if let Some(text) = self.text.strip_prefix('"') {
            return text.as_bytes().to_vec();
        }
        if let Some((count, byte)) = self.repeated() {
            return vec![byte; count];
        }
        read_hex(self.text.as_bytes()).expect("hex digits")
    }

    pub fn digest(&self) -> [u8; 32] {
        read_hex(self.digest.as_bytes()).unwrap().try_into().unwrap()
    }
}

/// Those of both hashes, each with its hash's number.
pub fn all() -> impl Iterator<Item = (u64, &'static Vector)> {
    sha256().map(|vector| (algorithm::SHA256, vector)).chain(SM3.iter().map(|vector| (algorithm::SM3, vector)))
}

pub fn sha256() -> impl Iterator<Item = &'static Vector> {
    EXAMPLES.iter().chain(ADDITIONAL).chain(SHORT)
}

/// GB/T 32905-2016, appendix A: `abc`, and 16 times `abcd`. GB/T 32918.2-2016, appendix A: Z of
/// user A, 212 bytes, and the value e of `message digest` behind it. Then those that OpenSSL has
/// for the empty string, for one byte, and for a million bytes.
pub const SM3: &[Vector] = &[
    v("\"abc", "66c7f0f462eeedd9d1f2d46bdc10e4e24167c4875cf2f7a2297da02b8f4ba8e0"),
    v(
        "\"abcdabcdabcdabcdabcdabcdabcdabcdabcdabcdabcdabcdabcdabcdabcdabcd",
        "debe9ff92275b8a138604889c18e5a4d6fdb70e5387e5765293dcba39c0c5732",
    ),
    v(
        concat!(
            "0090414c494345313233405941484f4f2e434f4d",
            "787968b4fa32c3fd2417842e73bbfeff2f3c848b6831d7e0ec65228b3937e498",
            "63e4c6d3b23b0c849cf84241484bfe48f61d59a5b16ba06e6e12d1da27c5249a",
            "421debd61b62eab6746434ebc3cc315e32220b3badd50bdc4c4e6c147fedd43d",
            "0680512bcbb42c07d47349d2153b70c4e5d7fdfcbfa36ea1a85841b9e46e09a2",
            "0ae4c7798aa0f119471bee11825be46202bb79e2a5844495e97c04ff4df2548a",
            "7c0240f88f1cd4e16352a73c17b7f16f07353e53a176d684a9fe0c6bb798e857",
        ),
        "f4a38489e32b45b6f876e3ac2168ca392362dc8f23459c1d1146fc3dbfb7bc9a",
    ),
    v(
        "f4a38489e32b45b6f876e3ac2168ca392362dc8f23459c1d1146fc3dbfb7bc9a6d65737361676520646967657374",
        "b524f552cd82b8b028476e005c377fb19a87e6fc682d48bb5d42e3d9b9effe76",
    ),
    v("", "1ab21d8355cfa17f8e61194831e81a8f22bec8c728fefb747ed035eb5082aa2b"),
    v("\"a", "623476ac18f65a2909e43c7fec61b49c7e764a91a18ccb82f1917a29c86c5e88"),
    v("1000000*61", "c8aaf89429554029e231941a2acc0ad61ff2a5acd8fadd25847a3a732b3b02c3"),
];

const fn v(text: &'static str, digest: &'static str) -> Vector {
    Vector { text, digest }
}

/// FIPS 180-4's examples (FIPS 180-2, appendix B, and NIST's example pages).
pub const EXAMPLES: &[Vector] = &[
    v("\"abc", "ba7816bf8f01cfea414140de5dae2223b00361a396177a9cb410ff61f20015ad"),
    v("\"abcdbcdecdefdefgefghfghighijhijkijkljklmklmnlmnomnopnopq", "248d6a61d20638b8e5c026930c3e6039a33ce45964ff2167f6ecedd419db06c1"),
    v(
        "\"abcdefghbcdefghicdefghijdefghijkefghijklfghijklmghijklmnhijklmnoijklmnopjklmnopqklmnopqrlmnopqrsmnopqrstnopqrstu",
        "cf5b16a778af8380036ce59e7b0492370b249b11e8f07a51afac45037afee9d1",
    ),
    v("1000000*61", "cdc76e5c9914fb9281a1c7e284d73e67f1809a48a497200e046d39ccc7112cd0"),
];

/// NIST's additional SHA-2 examples (SHA2_Additional).
pub const ADDITIONAL: &[Vector] = &[
    v("bd", "68325720aabd7c82f30f554b313d0570c95accbb7dc4b5aae11204c08ffe732b"),
    v("c98c8e55", "7abc22c0ae5af26ce93dbb94433a0e0b2e119d014f8e7f65bd56c61ccccd9504"),
    v("55*00", "02779466cdec163811d078815c633f21901413081449002f24aa3e80f0b88ef7"),
    v("56*00", "d4817aa5497628e7c77e6b606107042bbba3130888c5f47a375e6179be789fbb"),
    v("57*00", "65a16cb7861335d5ace3c60718b5052e44660726da4cd13bb745381b235a1785"),
    v("64*00", "f5a5fd42d16a20302798ef6ed309979b43003d2320d9f0e8ea9831a92759fb4b"),
    v("1000*00", "541b3e9daa09b20bf85fa273e5cbd3e80185aa4ec298e765db87742b70138a53"),
    v("1000*41", "c2e686823489ced2017f6059b8b239318b6364f6dcd835d0a519105a1eadd6e4"),
    v("1005*55", "f4d62ddec0f3dd90ea1380fa16a5ff8dc4c54b21740650f24afc4120903552b0"),
    v("1000000*00", "d29751f2649b32ff572b5e0a9f541ea660a50f94ff0beedfb0b692b924cc8025"),
];

/// NIST's SHA256ShortMsg.rsp, lengths of 0 to 352 bits.
pub const SHORT: &[Vector] = &[
    v("", "e3b0c44298fc1c149afbf4c8996fb92427ae41e4649b934ca495991b7852b855"),
    v("d3", "28969cdfa74a12c82f3bad960b0b000aca2ac329deea5c2328ebc6f2ba9802c1"),
    v("11af", "5ca7133fa735326081558ac312c620eeca9970d1e70a4b95533d956f072d1f98"),
    v("b4190e", "dff2e73091f6c05e528896c4c831b9448653dc2ff043528f6769437bc7b975c2"),
    v("74ba2521", "b16aa56be3880d18cd41e68384cf1ec8c17680c45a02b1575dc1518923ae8b0e"),
    v("c299209682", "f0887fe961c9cd3beab957e8222494abb969b1ce4c6557976df8b0f6d20e9166"),
    v("e1dc724d5621", "eca0a060b489636225b4fa64d267dabbe44273067ac679f20820bddc6b6a90ac"),
    v("06e076f5a442d5", "3fd877e27450e6bbd5d74bb82f9870c64c66e109418baa8e6bbcff355e287926"),
    v("5738c929c4f4ccb6", "963bb88f27f512777aab6c8b1a02c70ec0ad651d428f870036e1917120fb48bf"),
    v("3334c58075d3f4139e", "078da3d77ed43bd3037a433fd0341855023793f9afd08b4b08ea1e5597ceef20"),
    v("74cb9381d89f5aa73368", "73d6fad1caaa75b43b21733561fd3958bdc555194a037c2addec19dc2d7a52bd"),
    v("76ed24a0f40a41221ebfcf", "044cef802901932e46dc46b2545e6c99c0fc323a0ed99b081bda4216857f38ac"),
    v("9baf69cba317f422fe26a9a0", "fe56287cd657e4afc50dba7a3a54c2a6324b886becdcd1fae473b769e551a09b"),
    v("68511cdb2dbbf3530d7fb61cbc", "af53430466715e99a602fc9f5945719b04dd24267e6a98471f7a7869bd3b4313"),
    v("af397a8b8dd73ab702ce8e53aa9f", "d189498a3463b18e846b8ab1b41583b0b7efc789dad8a7fb885bbf8fb5b45c5c"),
    v("294af4802e5e925eb1c6cc9c724f09", "dcbaf335360de853b9cddfdafb90fa75567d0d3d58af8db9d764113aef570125"),
    v("0a27847cdc98bd6f62220b046edd762b", "80c25ec1600587e7f28b18b1b18e3cdc89928e39cab3bc25e4d4a4c139bcedc4"),
    v("1b503fb9a73b16ada3fcf1042623ae7610", "d5c30315f72ed05fe519a1bf75ab5fd0ffec5ac1acb0daf66b6b769598594509"),
    v("59eb45bbbeb054b0b97334d53580ce03f699", "32c38c54189f2357e96bd77eb00c2b9c341ebebacc2945f97804f59a93238288"),
    v("58e5a3259cb0b6d12c83f723379e35fd298b60", "9b5b37816de8fcdf3ec10b745428708df8f391c550ea6746b2cafe019c2b6ace"),
    v("c1ef39cee58e78f6fcdc12e058b7f902acd1a93b", "6dd52b0d8b48cc8146cebd0216fbf5f6ef7eeafc0ff2ff9d1422d6345555a142"),
    v("9cab7d7dcaec98cb3ac6c64dd5d4470d0b103a810c", "44d34809fc60d1fcafa7f37b794d1d3a765dd0d23194ebbe340f013f0c39b613"),
    v("ea157c02ebaf1b22de221b53f2353936d2359d1e1c97", "9df5c16a3f580406f07d96149303d8c408869b32053b726cf3defd241e484957"),
    v("da999bc1f9c7acff32828a73e672d0a492f6ee895c6867", "672b54e43f41ee77584bdf8bf854d97b6252c918f7ea2d26bc4097ea53a88f10"),
    v("47991301156d1d977c0338efbcad41004133aefbca6bcf7e", "feeb4b2b59fec8fdb1e55194a493d8c871757b5723675e93d3ac034b380b7fc9"),
    v("2e7ea84da4bc4d7cfb463e3f2c8647057afff3fbececa1d200", "76e3acbc718836f2df8ad2d0d2d76f0cfa5fea0986be918f10bcee730df441b9"),
    v("47c770eb4549b6eff6381d62e9beb464cd98d341cc1c09981a7a", "6733809c73e53666c735b3bd3daf87ebc77c72756150a616a194108d71231272"),
    v("ac4c26d8b43b8579d8f61c9807026e83e9b586e1159bd43b851937", "0e6e3c143c3a5f7f38505ed6adc9b48c18edf6dedf11635f6e8f9ac73c39fe9e"),
    v("0777fc1e1ca47304c2e265692838109e26aab9e5c4ae4e8600df4b1f", "ffb4fc03e054f8ecbc31470fc023bedcd4a406b9dd56c71da1b660dcc4842c65"),
    v("1a57251c431d4e6c2e06d65246a296915071a531425ecf255989422a66", "c644612cd326b38b1c6813b1daded34448805aef317c35f548dfb4a0d74b8106"),
    v("9b245fdad9baeb890d9c0d0eff816efb4ca138610bc7d78cb1a801ed3273", "c0e29eeeb0d3a7707947e623cdc7d1899adc70dd7861205ea5e5813954fb7957"),
    v("95a765809caf30ada90ad6d61c2b4b30250df0a7ce23b7753c9187f4319ce2", "a4139b74b102cf1e2fce229a6cd84c87501f50afa4c80feacf7d8cf5ed94f042"),
    v(
        "09fc1accc230a205e4a208e64a8f204291f581a12756392da4b8c0cf5ef02b95",
        "4f44c1c7fbebb6f9601829f3897bfd650c56fa07844be76489076356ac1886a4",
    ),
    v(
        "0546f7b8682b5b95fd32385faf25854cb3f7b40cc8fa229fbd52b16934aab388a7",
        "b31ad3cd02b10db282b3576c059b746fb24ca6f09fef69402dc90ece7421cbb7",
    ),
    v(
        "b12db4a1025529b3b7b1e45c6dbc7baa8897a0576e66f64bf3f8236113a6276ee77d",
        "1c38bf6bbfd32292d67d1d651fd9d5b623b6ec1e854406223f51d0df46968712",
    ),
    v(
        "e68cb6d8c1866c0a71e7313f83dc11a5809cf5cfbeed1a587ce9c2c92e022abc1644bb",
        "c2684c0dbb85c232b6da4fb5147dd0624429ec7e657991edd95eda37a587269e",
    ),
    v(
        "4e3d8ac36d61d9e51480831155b253b37969fe7ef49db3b39926f3a00b69a36774366000",
        "bf9d5e5b5393053f055b380baed7e792ae85ad37c0ada5fd4519542ccc461cf3",
    ),
    v(
        "03b264be51e4b941864f9b70b4c958f5355aac294b4b87cb037f11f85f07eb57b3f0b89550",
        "d1f8bd684001ac5a4b67bbf79f87de524d2da99ac014dec3e4187728f4557471",
    ),
    v(
        "d0fefd96787c65ffa7f910d6d0ada63d64d5c4679960e7f06aeb8c70dfef954f8e39efdb629b",
        "49ba38db85c2796f85ffd57dd5ec337007414528ae33935b102d16a6b91ba6c1",
    ),
    v(
        "b7c79d7e5f1eeccdfedf0e7bf43e730d447e607d8d1489823d09e11201a0b1258039e7bd4875b1",
        "725e6f8d888ebaf908b7692259ab8839c3248edd22ca115bb13e025808654700",
    ),
    v(
        "64cd363ecce05fdfda2486d011a3db95b5206a19d3054046819dd0d36783955d7e5bf8ba18bf738a",
        "32caef024f84e97c30b4a7b9d04b678b3d8a6eb2259dff5b7f7c011f090845f8",
    ),
    v(
        "6ac6c63d618eaf00d91c5e2807e83c093912b8e202f78e139703498a79c6067f54497c6127a23910a6",
        "4bb33e7c6916e08a9b3ed6bcef790aaaee0dcf2e7a01afb056182dea2dad7d63",
    ),
    v(
        "d26826db9baeaa892691b68900b96163208e806a1da077429e454fa011840951a031327e605ab82ecce2",
        "3ac7ac6bed82fdc8cd15b746f0ee7489158192c238f371c1883c9fe90b3e2831",
    ),
    v(
        "3f7a059b65d6cb0249204aac10b9f1a4ac9e5868adebbe935a9eb5b9019e1c938bfc4e5c5378997a3947f2",
        "bfce809534eefe871273964d32f091fe756c71a7f512ef5f2300bcd57f699e74",
    ),
    v(
        "60ffcb23d6b88e485b920af81d1083f6291d06ac8ca3a965b85914bc2add40544a027fca936bbde8f359051c",
        "1d26f3e04f89b4eaa9dbed9231bb051eef2e8311ad26fe53d0bf0b821eaf7567",
    ),
];
