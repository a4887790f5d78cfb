<?php class C {}
break;