"""Which script a language is written in, which locale is the parent of which, and which one represents others: the
tables by which Android compares locales (LocaleDataTables.cpp of Android 10, Apache License 2.0, The Android Open
Source Project), which are made of Unicode's CLDR. A locale is a language, or a language and a region."""
from typing import Dict

# of each script, the locales that are written in it where they do not say another
LIKELY_SCRIPTS: Dict[str, str] = {
    "Ahom":
        "aho",
    "Arab":
        "aeb apc apd ar arq ary arz avl az-IQ az-IR bal bej bft bgn bqi brh cja ckb dcc dgl doi fa fia fub gbz gjk "
        "gju glk gwc gwt ha-CM ha-SD haz hnd hno kby kdh khw kk-AF kk-CN kk-IR kk-MN ks ku-IR ku-LB kvx kxp ky-CN "
        "lah lki lrc luz mde mfa mki ms-CC ms-ID mvy mzn oru ota pa-PK phl prd ps rhg rmt scl sd sdh shu skr swb "
        "tg-PK trw ug ur uz-AF wni zdj",
    "Armi":
        "arc",
    "Armn":
        "hy",
    "Avst":
        "ae",
    "Bamu":
        "bax",
    "Bass":
        "bsq",
    "Beng":
        "as bn bpy ccp grt mni rkt syl unr unx",
    "Brah":
        "pka",
    "Cans":
        "cr crj crk crl crm csw iu nsk",
    "Cari":
        "xcr",
    "Cham":
        "cjm",
    "Cher":
        "chr",
    "Copt":
        "cop",
    "Cprt":
        "grc",
    "Cyrl":
        "ab ady alt av az-RU ba be bg bua ce chm cu cv dar inh kaa kbd kk koi krc kum kv ky lbe lez mdf mk mn mrj "
        "myv os ru rue sah sr tg tt tyv udm ug-KZ ug-MN uk uz-CN",
    "Deva":
        "awa bap bfy bgc bhb bhi bho bjj bra brx btv dty gbm ggn gom gvr hi hne hoc hoj jml kfr kfy khn kok kru lif "
        "mag mai mgp mr mrd mtr mwr ne new noe raj rjs sa sck srx swv taj tdg tdh thl thq thr tkt tsf unr-NP wbr wtm "
        "xnr xsr",
    "Egyp":
        "egy",
    "Ethi":
        "am bcq bji bst byn drs gez gmv gof hdy kqy ktb kxc mdx mym sgw ti tig wal",
    "Geor":
        "ka xmf",
    "Goth":
        "got",
    "Grek":
        "bgx el pnt tsd",
    "Gujr":
        "gu",
    "Guru":
        "pa",
    "Hans":
        "gan hak hsn lzh nan wuu yue-CN zh",
    "Hant":
        "yue zh-AU zh-BN zh-GB zh-GF zh-HK zh-ID zh-MO zh-MY zh-PA zh-PF zh-PH zh-SR zh-TH zh-TW zh-US zh-VN",
    "Hatr":
        "mis",
    "Hebr":
        "he iw ji lad yi",
    "Hluw":
        "hlu",
    "Hmng":
        "hnj",
    "Ital":
        "ett",
    "Jpan":
        "ja",
    "Kali":
        "eky",
    "Kana":
        "ryu",
    "Khar":
        "pra",
    "Khmr":
        "km",
    "Knda":
        "kn tcy",
    "Kore":
        "ko",
    "Lana":
        "nod",
    "Laoo":
        "kjg lo",
    "Latn":
        "aa aai aak aau abi abr abt aby acd ace ach ada ade adj adz aey af agc agd agg agm ago agq aha ahl ajg ak "
        "ala ali aln amm amn amo amp anc ank ann any aoj aom aoz ape apr aps apz arh arn aro asa asg aso ast ata atg "
        "atj auy avn avt avu awb awo awx ay ayb az ban bar bas bav bba bbb bbc bbd bbj bbp bbr bcf bch bci bcm bcn "
        "bco bcu bdd bef beh bem bet bew bex bez bfd bhg bhk bhl bhy bi bib big bik bim bin bio biq bjh bjn bjo bjr "
        "bjz bkc bkm bkq bku bkv bm bmh bmk bmq bmu bng bnm bnp boj bom bon bqc bqp bqv br brz bs bsj bss bto btt "
        "buc bud bug buk bum buo bus buu bvb bwd bwr bxh bye byr bys byv byx bza bze bzf bzh bzw ca can cbj cch ceb "
        "cfa cgg ch chk cho chp cjv ckl cko cky cla cme co cps crs cs csb cy da dad daf dag dah dak dav dbd dbq ddn "
        "de ded den dga dgh dgi dgr dgz dia dje dnj dob dop dow dri dsb dtm dtp dts dua duc dud dug dva dww dyo dyu "
        "dzg ebu ee efi egl ema emi en enn enq eo eri es esu et etr etu etx eu ewo ext faa fab fag fai fan ff ffi "
        "ffm fi fil fit fj flr fmp fo fod fon for fpe fqs fr frc frp frr frs fud fue fuf fuh fuq fur fuv fuy fvr fy "
        "ga gaa gaf gag gah gaj gam gaw gay gbf gby gcr gd gde gdn gdr geb gej gel gfk ghs gil gim gjn gkn gkp gl "
        "gmm gn gnd gng god goi gor gos grw gsw gub guc gud gur guw gux guz gv gvf gvs gwi gyi ha hag ham haw hbb "
        "hhy hia hif hig hih hil hla hmt hnn ho hot hr hsb ht hu hui hz ia ian iar iba ibb iby ica ich id idd idi "
        "idu ig igb ige ijj ik ikk ikt ikw ikx ilo imo in iou iri is it iwm iws izh izi jab jam jbu jen jgk jgo jib "
        "jmc jra jut jv jw kab kac kad kai kaj kam kao kbm kbp kbq kbx kcg kck kcl kct kde kdl kea ken kez kfo kg "
        "kge kgf kgp kha khq khs khz ki kij kiu kiw kj kjd kjs kjy kkc kkj kl kln klq klt klx kmb kmh kmo kms kmu "
        "kmw knp kol kos koz kpe kpf kpo kpr kpx kqb kqf kqs kri krj krl krs ksb ksd ksf ksh ksj ksr ktm kto ku kub "
        "kud kue kuj kun kup kus kvg kvr kw kwj kwo kxa kxw kxz ky-TR kye kyx kzr la lag laj las lb lbu lbw lcm ldb "
        "led lee lem leq leu lg lgg li lia lid lig lih lij ljp lkt lle lln lmo lmp ln lns lnu loj lok lol lor los "
        "loz lt ltg lu lua luo luy lv lzz mad maf mak man mas maw maz mbh mbo mbq mbu mbw mci mcp mcq mcr mcu mda "
        "mdh mdj mdr med mee mek men mer met meu mfe mfn mfo mfq mg mgh mgl mgo mgy mh mhi mhl mi mif min miw mkl "
        "mkp mkw mle mlp mls mmo mmu mmx mna mnf moa moe moh mos mox mpp mps mpt mpx mql ms mt mtc mtf mti mua mur "
        "mus mva mvn mwk mwv mxc mxm myk myw myx mzk mzm mzp mzw mzz na nac naf nak nap naq nas nb nca nce ncf nch "
        "nco ncu nd ndc nds neb nex nfr ng nga ngb ngl nhb nhe nhw nif nii nij nin niu niy niz njo nkg nko nl nmg "
        "nmz nn nnf nnh nnk nnm no nop nou nr nrb nsn nso nss ntm ntr nui nup nus nuv nux nv nwb nxq nxr ny nym nyn "
        "nzi oc ogc okr okv om ong onn ons opm oro ozm pag pam pap pau pbi pcd pcm pdc pdt ped pex pfl pil pip pko "
        "pl pla pms png pnn pon ppo prg pss pt ptp puu pwa qu quc qug rai rao rcf rej rel res rgn ria rif-NL rm rmf "
        "rmo rmu rn rna rng ro rob rof roo rro rtm rug rw rwk rwo saf saq sas sat sba sbe sbp sc scn sco scs sdc se "
        "sef seh sei ses sg sgs sgz sh shk sid sig sil sim sjr sk skc sks sl sld sli sll sly sm sma smj smn smq sms "
        "sn snc snk snp snx sny so sok soq soy spd spl sps sq sr-ME sr-RO sr-RU sr-TR srn srr ss ssd ssg ssy st stk "
        "stq su sua sue suk sur sus sv sw swc swg swp sxn sxw szl tal tan taq tbc tbd tbf tbg tbo tbw tbz tci ted "
        "tem teo tet tfi tgc tgo tgu tif tik tim tio tiv tk tkl tkr tl tlf tlx tly tmh tmy tn tnh to tof tog toq tpi "
        "tpm tpz tqo tr tru trv ts tsg tsw ttd tte ttj ttr ttt tuh tul tum tuq tvd tvl tvu twh twq ty tya tzm ubu "
        "uli umb uri urt urw usa utr uvh uvl uz vag van ve vec vep vi vic viv vls vmf vmw vo vot vro vun vut wa wae "
        "waj wan war wbp wci wer wgi whg wib wiu wiv wja wji wls wmo wnc wnu wo wob wos wrs wsk wuv wwa xav xbi xes "
        "xh xla xog xon xrb xsi xsm xwe yam yao yap yas yat yav yay yaz yba ybb yby yer ygr ygw yko yle ylg yll yml "
        "yo yon yrb yre yrl yss yua yuj yut yuw za zag zea zia zlm zmi zne zu zza",
    "Lepc":
        "lep",
    "Lina":
        "lab",
    "Lisu":
        "lis",
    "Lyci":
        "xlc",
    "Lydi":
        "xld",
    "Mand":
        "myz",
    "Mani":
        "xmn",
    "Merc":
        "xmr",
    "Mlym":
        "ml",
    "Mong":
        "mn-CN",
    "Mroo":
        "mro",
    "Mymr":
        "kht mnw my shn",
    "Narb":
        "xna",
    "Nkoo":
        "man-GN nqo",
    "Ogam":
        "sga",
    "Orkh":
        "otk",
    "Orya":
        "or",
    "Osge":
        "osa",
    "Pauc":
        "ctd",
    "Phli":
        "pal",
    "Phnx":
        "phn",
    "Plrd":
        "hmd",
    "Prti":
        "xpr",
    "Runr":
        "non",
    "Samr":
        "smp",
    "Sarb":
        "xsa",
    "Saur":
        "saz",
    "Sgnw":
        "ase",
    "Sinh":
        "si",
    "Sora":
        "srb",
    "Syrc":
        "syr",
    "Tale":
        "tdd",
    "Talu":
        "khb",
    "Taml":
        "bfq ta",
    "Tang":
        "txg",
    "Tavt":
        "blt",
    "Telu":
        "gon lmn te wbq",
    "Tfng":
        "rif shi zgh",
    "Thaa":
        "dv",
    "Thai":
        "kdt kxm lcp lwl sou th tts",
    "Tibt":
        "bo dz tsj",
    "Ugar":
        "uga",
    "Vaii":
        "vai",
    "Xpeo":
        "peo",
    "Xsux":
        "akk",
    "Yiii":
        "ii",
    "~~~A":
        "en-XA",
    "~~~B":
        "ar-XB",
}
# of each script, the locales that represent the others around them
REPRESENTATIVES: Dict[str, str] = {
    "Adlm":
        "ff-GN",
    "Ahom":
        "aho-IN",
    "Arab":
        "aeb-TN apd-TG ar-EG arq-DZ ary-MA arz-EG az-IR bal-PK bej-SD bft-PK bgn-PK bqi-IR brh-PK cja-KH ckb-IQ "
        "dcc-IN doi-IN fa-IR fia-SD fub-CM gbz-IR gjk-PK gju-PK glk-IR haz-AF hnd-PK hno-PK kby-NE kdh-TG khw-PK "
        "kk-CN ks-IN ku-IQ kvx-PK kxp-PK ky-CN lah-PK lki-IR lrc-IR luz-IR mfa-TH mvy-PK mzn-IR pa-PK prd-IR ps-AF "
        "rmt-IR sd-PK sdh-IR skr-PK swb-YT tg-PK ug-CN ur-PK uz-AF wni-KM zdj-KM",
    "Armi":
        "arc-IR",
    "Armn":
        "hy-AM",
    "Avst":
        "ae-IR",
    "Bamu":
        "bax-CM",
    "Bass":
        "bsq-LR",
    "Beng":
        "as-IN bn-BD bpy-IN ccp-IN grt-IN mni-IN rkt-BD syl-BD unr-IN unx-IN",
    "Bopo":
        "zh-TW",
    "Brah":
        "pka-IN",
    "Cakm":
        "ccp-BD",
    "Cans":
        "cr-CA crj-CA crk-CA crl-CA crm-CA csw-CA iu-CA nsk-CA",
    "Cari":
        "xcr-TR",
    "Cham":
        "cjm-VN",
    "Cher":
        "chr-US",
    "Copt":
        "cop-EG",
    "Cprt":
        "grc-CY",
    "Cyrl":
        "ab-GE ady-RU alt-RU av-RU ba-RU be-BY bg-BG bua-RU ce-RU chm-RU cu-RU cv-RU dar-RU inh-RU kaa-UZ kbd-RU "
        "kk-KZ koi-RU krc-RU kum-RU kv-RU ky-KG lbe-RU lez-RU mdf-RU mk-MK mn-MN mrj-RU myv-RU os-GE ru-RU rue-UA "
        "sah-RU sr-RS tg-TJ tt-RU tyv-RU udm-RU ug-KZ uk-UA",
    "Deva":
        "awa-IN bap-NP bfy-IN bgc-IN bhb-IN bhi-IN bho-IN bjj-IN bra-IN brx-IN btv-PK dty-NP gbm-IN ggn-NP gom-IN "
        "gvr-NP hi-IN hne-IN hoc-IN hoj-IN jml-NP kfr-IN kfy-IN khn-IN kok-IN kru-IN lif-NP mag-IN mai-IN mgp-NP "
        "mr-IN mrd-NP mtr-IN mwr-IN ne-NP new-NP noe-IN raj-IN rjs-NP sa-IN sck-IN sd-IN srx-IN swv-IN taj-NP tdg-NP "
        "tdh-NP thl-NP thq-NP thr-NP tkt-NP tsf-NP unr-NP wbr-IN wtm-IN xnr-IN xsr-NP",
    "Egyp":
        "egy-EG",
    "Ethi":
        "am-ET byn-ER gez-ET ti-ET tig-ER wal-ET",
    "Geor":
        "ka-GE xmf-GE",
    "Glag":
        "cu-BG",
    "Goth":
        "got-UA",
    "Grek":
        "bgx-TR el-GR pnt-GR tsd-GR",
    "Gujr":
        "gu-IN",
    "Guru":
        "pa-IN",
    "Hanb":
        "zh-TW",
    "Hans":
        "gan-CN hak-CN hsn-CN lzh-CN nan-CN wuu-CN yue-CN zh-CN",
    "Hant":
        "yue-HK zh-TW",
    "Hatr":
        "mis-IQ",
    "Hebr":
        "he-IL iw-IL lad-IL",
    "Hluw":
        "hlu-TR",
    "Hmng":
        "hnj-LA",
    "Ital":
        "ett-IT",
    "Jpan":
        "ja-JP",
    "Kali":
        "eky-MM",
    "Kana":
        "ryu-JP",
    "Khar":
        "pra-PK",
    "Khmr":
        "km-KH",
    "Khoj":
        "sd-IN",
    "Knda":
        "kn-IN tcy-IN",
    "Kore":
        "ko-KR",
    "Lana":
        "nod-TH",
    "Laoo":
        "kjg-LA lo-LA",
    "Latn":
        "aa-ET abr-GH ace-ID ach-UG ada-GH af-ZA agq-CM ak-GH aln-XK amo-NG aoz-ID arn-CL aro-BO asa-TZ ast-ES "
        "atj-CA ay-BO az-AZ ban-ID bar-AT bas-CM bbc-ID bbj-CM bci-CI bem-ZM bew-ID bez-TZ bfd-CM bhk-PH bi-VU "
        "bik-PH bin-NG bjn-ID bkm-CM bku-PH bm-ML bmq-ML bqv-CI br-FR bs-BA bss-CM bto-PH buc-YT bug-ID bum-CM "
        "bvb-GQ byv-CM bze-ML ca-ES cch-NG ceb-PH cgg-UG ch-GU chk-FM cho-US chp-CA co-FR cps-PH crs-SC cs-CZ csb-PL "
        "cy-GB da-DK dak-US dav-KE de-DE den-CA dgr-CA dje-NE dnj-CI dsb-DE dtm-ML dtp-MY dua-CM dyo-SN dyu-BF "
        "ebu-KE ee-GH efi-NG egl-IT en-GB en-US es-ES es-MX es-US esu-US et-EE eu-ES ewo-CM ext-ES fan-GQ ff-SN "
        "ffm-ML fi-FI fil-PH fit-SE fj-FJ fo-FO fon-BJ fr-FR frc-US frp-FR frr-DE frs-DE fud-WF fuf-GN fuq-NE fur-IT "
        "fuv-NG fvr-SD fy-NL ga-IE gaa-GH gag-MD gay-ID gcr-GF gd-GB gil-KI gl-ES gn-PY gor-ID gos-NL gsw-CH gub-BR "
        "guc-CO gur-GH guz-KE gv-IM gwi-CA ha-NG haw-US hif-FJ hil-PH hnn-PH ho-PG hr-HR hsb-DE ht-HT hu-HU hz-NA "
        "ia-FR iba-MY ibb-NG id-ID ig-NG ik-US ikt-CA ilo-PH in-ID is-IS it-IT izh-RU jam-JM jgo-CM jmc-TZ jut-DK "
        "jv-ID jw-ID kab-DZ kac-MM kaj-NG kam-KE kao-ML kcg-NG kck-ZW kde-TZ kea-CV ken-CM kfo-CI kg-CD kge-ID "
        "kgp-BR kha-IN khq-ML ki-KE kiu-TR kj-NA kkj-CM kl-GL kln-KE kmb-AO kos-FM kpe-LR kri-SL krj-PH krl-RU "
        "ksb-TZ ksf-CM ksh-DE ku-TR kvr-ID kw-GB ky-TR la-VA lag-TZ laj-UG lb-LU lbw-ID lg-UG li-NL lij-IT ljp-ID "
        "lkt-US lmo-IT ln-CD lol-CD loz-ZM lt-LT ltg-LV lu-CD lua-CD luo-KE luy-KE lv-LV lzz-TR mad-ID maf-CM mak-ID "
        "man-GM mas-KE maz-MX mdh-PH mdr-ID men-SL mer-KE mfe-MU mg-MG mgh-MZ mgo-CM mgy-TZ mh-MH mi-NZ min-ID "
        "mls-SD moe-CA moh-CA mos-BF ms-MY mt-MT mua-CM mus-US mwk-ML mwv-ID mxc-ZW myx-UG na-NR nap-IT naq-NA nb-NO "
        "nch-MX nd-ZW ndc-MZ nds-DE ng-NA ngl-MZ nhe-MX nhw-MX nij-ID niu-NU njo-IN nl-NL nmg-CM nn-NO nnh-CM no-NO "
        "nr-ZA nso-ZA nus-SS nv-US nxq-CN ny-MW nym-TZ nyn-UG nzi-GH oc-FR om-ET pag-PH pam-PH pap-AW pau-PW pcd-FR "
        "pcm-NG pdc-US pdt-CA pfl-DE pko-KE pl-PL pms-IT pon-FM pt-BR puu-GA qu-PE quc-GT qug-EC rcf-RE rej-ID "
        "rgn-IT ria-IN rm-CH rmf-FI rmo-CH rmu-SE rn-BI rng-MZ ro-RO rob-ID rof-TZ rtm-FJ rug-SB rw-RW rwk-TZ saf-GH "
        "saq-KE sas-ID sat-IN sbp-TZ sc-IT scn-IT sco-GB scs-CA sdc-IT se-NO sef-CI seh-MZ sei-MX ses-ML sg-CF "
        "sgs-LT sid-ET sk-SK sl-SI sli-PL sly-ID sm-WS sma-SE smj-SE smn-FI sms-FI sn-ZW snk-ML so-SO sq-AL sr-RS "
        "srn-SR srr-SN ss-ZA ssy-ER st-ZA stq-DE su-ID suk-TZ sus-GN sv-SE sw-TZ swc-CD swg-DE sxn-ID szl-PL tbw-PH "
        "tem-SL teo-UG tet-TL tiv-NG tk-TM tkl-TK tkr-AZ tl-PH tly-AZ tmh-NE tn-ZA to-TO tog-MW tpi-PG tr-TR tru-TR "
        "trv-TW ts-ZA tsg-PH ttj-UG ttt-AZ tum-MW tvl-TV twq-NE ty-PF tzm-MA uli-FM umb-AO uz-UZ ve-ZA vec-IT vep-RU "
        "vi-VN vic-SX vls-BE vmf-DE vmw-MZ vot-RU vro-EE vun-TZ wa-BE wae-CH war-PH wbp-AU wls-WF wo-SN xav-BR xh-ZA "
        "xog-UG yao-MZ yap-FM yav-CM ybb-CM yo-NG yrl-BR yua-MX za-CN zag-SD zea-NL zlm-TG zmi-MY zu-ZA zza-TR",
    "Lepc":
        "lep-IN",
    "Limb":
        "lif-IN",
    "Lina":
        "lab-GR",
    "Linb":
        "grc-GR",
    "Lisu":
        "lis-CN",
    "Lyci":
        "xlc-TR",
    "Lydi":
        "xld-TR",
    "Mand":
        "myz-IR",
    "Mani":
        "xmn-CN",
    "Merc":
        "xmr-SD",
    "Mlym":
        "ml-IN",
    "Mong":
        "mn-CN",
    "Mroo":
        "mro-BD",
    "Mymr":
        "kht-IN mnw-MM my-MM shn-MM",
    "Narb":
        "xna-SA",
    "Nbat":
        "arc-JO",
    "Nkoo":
        "man-GN nqo-GN",
    "Ogam":
        "sga-IE",
    "Orkh":
        "otk-MN",
    "Orya":
        "or-IN",
    "Osge":
        "osa-US",
    "Palm":
        "arc-SY",
    "Pauc":
        "ctd-MM",
    "Phli":
        "pal-IR",
    "Phlp":
        "pal-CN",
    "Phnx":
        "phn-LB",
    "Plrd":
        "hmd-CN",
    "Prti":
        "xpr-IR",
    "Runr":
        "non-SE",
    "Samr":
        "smp-IL",
    "Sarb":
        "xsa-YE",
    "Saur":
        "saz-IN",
    "Sgnw":
        "ase-US",
    "Shaw":
        "en-GB",
    "Sind":
        "sd-IN",
    "Sinh":
        "si-LK",
    "Sora":
        "srb-IN",
    "Syrc":
        "syr-IQ",
    "Tale":
        "tdd-CN",
    "Talu":
        "khb-CN",
    "Taml":
        "bfq-IN ta-IN",
    "Tang":
        "txg-CN",
    "Tavt":
        "blt-VN",
    "Telu":
        "gon-IN lmn-IN te-IN wbq-IN",
    "Tfng":
        "rif-MA shi-MA zgh-MA",
    "Thaa":
        "dv-MV",
    "Thai":
        "kdt-TH kxm-TH lcp-CN lwl-TH sou-TH th-TH tts-TH",
    "Tibt":
        "bo-CN dz-BT tsj-BT",
    "Ugar":
        "uga-SY",
    "Vaii":
        "vai-LR",
    "Xpeo":
        "peo-IR",
    "Xsux":
        "akk-IQ",
    "Yiii":
        "ii-CN",
}
# of each script, the locales whose parent is not their language: of each parent its children; "" is the root
PARENTS: Dict[str, Dict[str, str]] = {
    "Arab": {
        "ar-015":
            "ar-DZ ar-EH ar-LY ar-MA ar-TN",
    },
    "Hant": {
        "zh-HK":
            "zh-MO",
    },
    "Latn": {
        "en-001":
            "en-150 en-AG en-AI en-AU en-BB en-BE en-BM en-BS en-BW en-BZ en-CA en-CC en-CK en-CM en-CX en-CY en-DG "
            "en-DM en-ER en-FJ en-FK en-FM en-GB en-GD en-GG en-GH en-GI en-GM en-GY en-HK en-IE en-IL en-IM en-IN "
            "en-IO en-JE en-JM en-KE en-KI en-KN en-KY en-LC en-LR en-LS en-MG en-MO en-MS en-MT en-MU en-MW en-MY "
            "en-NA en-NF en-NG en-NR en-NU en-NZ en-PG en-PH en-PK en-PN en-PW en-RW en-SB en-SC en-SD en-SG en-SH "
            "en-SL en-SS en-SX en-SZ en-TC en-TK en-TO en-TT en-TV en-TZ en-UG en-VC en-VG en-VU en-WS en-ZA en-ZM "
            "en-ZW",
        "en-150":
            "en-AT en-CH en-DE en-DK en-FI en-NL en-SE en-SI",
        "es-419":
            "es-AR es-BO es-BR es-CL es-CO es-CR es-CU es-DO es-EC es-GT es-HN es-MX es-NI es-PA es-PE es-PR es-PY "
            "es-SV es-US es-UY es-VE",
        "pt-PT":
            "pt-AO pt-CH pt-CV pt-GQ pt-GW pt-LU pt-MO pt-MZ pt-ST pt-TL",
    },
}
